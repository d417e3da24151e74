/* The inline call of report with NULL. Compiled as C and as C++. */
#include "shinglebar.h"

#include <string.h>

#include "expect.h"

int main(void)
{
    const uint8_t table[SHINGLEBAR_RECORD_LENGTH] = {0x40, 0x00, 0x01, 0x40, 0x40, 0x00, 0x00,
                                                     0x00, 0x00, 0x22, 0x46, 0x82, 0x81, 0x2C};
    static const char text[] = "1234 1 0\nfree 0\nspoilt 0\n";
    uint8_t out[SHINGLEBAR_REPORT_LENGTH_MAX] = {0};
    uint64_t written;

    expect("both NULL", shinglebar_report_any(NULL, 0, NULL, 0), SHINGLEBAR_REFUSAL_OUTPUT_LENGTH);
    expect("area NULL", shinglebar_report_any(table, sizeof table, NULL, 0), SHINGLEBAR_REFUSAL_OUTPUT_LENGTH);
    expect("a byte short", shinglebar_report_any(table, sizeof table, out, sizeof text - 2), SHINGLEBAR_REFUSAL_OUTPUT_LENGTH);
    expect("nothing is written", out[0], 0);
    written = shinglebar_report_any(NULL, 0, out, sizeof out);
    expect("table NULL", shinglebar_kind(written), SHINGLEBAR_REPORT_WRITTEN);
    expect("table NULL, text", (uint64_t)memcmp(out, "refused 2\n\0", 11), 0);
    expect("table NULL, length", shinglebar_written_length(written), 10);
    written = shinglebar_report_any(table, sizeof table, out, sizeof text - 1);
    expect("report", shinglebar_kind(written), SHINGLEBAR_REPORT_WRITTEN);
    expect("report, length", shinglebar_written_length(written), sizeof text - 1);
    expect("report, text", (uint64_t)memcmp(out, text, sizeof text), 0);
    return failures == 0 ? 0 : 1;
}
