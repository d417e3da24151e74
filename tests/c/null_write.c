/* The wrapper of write_flush with NULL. Compiled as C and as C++. */
#include "shinglebar.h"

#include "expect.h"

int main(void)
{
    const uint8_t vlans[4] = {0x00, 0x0A, 0x00, 0x0C};
    uint8_t out[6] = {0};
    uint64_t written;

    expect("all NULL", shinglebar_write_flush_any(NULL, 0, NULL, 0, NULL, 0, NULL, 0, NULL, 0), 23);
    expect("area NULL", shinglebar_write_flush_any(NULL, 0, vlans, 4, NULL, 0, NULL, 0, NULL, 0), 16);
    written = shinglebar_write_flush_any(NULL, 0, vlans, 4, NULL, 0, NULL, 0, out, sizeof out);
    expect("written", shinglebar_kind(written), SHINGLEBAR_WRITE_FLUSH_WRITTEN);
    expect("length", shinglebar_written_length(written), 6);
    expect("K-VLBs", out[1], 1);
    expect("end", out[5], 0x0C);
    return failures == 0 ? 0 : 1;
}
