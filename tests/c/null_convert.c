/* The inline calls of compact, expand and send with NULL. Compiled as C and as C++. */
#include "shinglebar.h"

#include "expect.h"

#define PORT UINT64_C(0x0200000000A1)
#define INNER UINT64_C(0x0200000000B1)
#define SOURCE UINT64_C(0x0200000000B2)

/* The later fields are left out. */
#pragma GCC diagnostic ignored "-Wmissing-field-initializers"
static const struct shinglebar_settings FAR = {PORT, INNER, 0x0102, 1, 20, 0};

int main(void)
{
    const uint8_t general[40] = {0x02, 0x00, 0x00, 0x00, 0x00, 0xA1, 0x02, 0x00, 0x00, 0x00,
                                 0x00, 0xB2, 0x22, 0xF3, 0x00, 0x05, 0x01, 0x02, 0x12, 0x34,
                                 0x02, 0x00, 0x00, 0x00, 0x00, 0x0D, 0x02, 0x00, 0x00, 0x00,
                                 0x00, 0x01, 0x81, 0x00, 0x00, 0x0A, 0x08, 0x00, 0x45, 0x00};
    uint8_t compact[28] = {0};
    uint8_t work[SHINGLEBAR_COMPACT_LENGTH_MAX] = {0};
    uint8_t expanded[40] = {0};
    uint64_t result;
    size_t at;

    expect("compact NULL", shinglebar_compact_any(&FAR, NULL, 0, NULL, 0), 3);
    expect("compact into NULL", shinglebar_compact_any(&FAR, general, sizeof general, NULL, 0),
           16);
    expect("expand NULL", shinglebar_expand_any(&FAR, SOURCE, 0, 0, NULL, 0, NULL, 0), 3);
    expect("send NULL", shinglebar_send_any(&FAR, NULL, 0, NULL, 0), 16);
    expect("send NULL with room", shinglebar_send_any(&FAR, NULL, 0, work, sizeof work), 3);
    expect("send with NULL", shinglebar_send_any(&FAR, general, sizeof general, NULL, 0), 16);

    result = shinglebar_send_any(&FAR, general, sizeof general, work, sizeof work);
    expect("sent", shinglebar_kind(result), SHINGLEBAR_SEND_COMPACTED);
    expect("sent length", shinglebar_written_length(result), 28);
    result = shinglebar_compact_any(&FAR, general, sizeof general, compact, sizeof compact);
    expect("compacted", shinglebar_kind(result), SHINGLEBAR_COMPACT_WRITTEN);
    expect("compacted length", shinglebar_written_length(result), 28);

    expect("expand into NULL",
           shinglebar_expand_any(&FAR, SOURCE, 0, 0, compact, sizeof compact, NULL, 0), 16);
    result = shinglebar_expand_any(&FAR, SOURCE, 0, 0, compact, sizeof compact, expanded,
                                   sizeof expanded);
    expect("expanded", shinglebar_kind(result), SHINGLEBAR_EXPAND_WRITTEN);
    expect("expanded length", shinglebar_written_length(result), 40);
    for (at = 0; at < sizeof general; at++) {
        expect("byte", expanded[at], general[at]);
    }
    return failures == 0 ? 0 : 1;
}
