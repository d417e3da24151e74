/* The inline call of hello_write with NULL. Compiled as C and as C++. */
#include "shinglebar.h"

#include "expect.h"

int main(void)
{
    static const uint8_t payload[] = {0xFB, 0x09, 0x00, 0x00, 0x01, 0x16, 0x04, 0x00, 0x1E, 0x00, 0x05};
    /* one Smart-Parameters with holding time 30 and flags 5, and nothing else */
    uint8_t contents[48] = {0};
    uint8_t out[sizeof payload + 1] = {0};
    uint64_t written;
    size_t at;

    contents[7] = 1;
    contents[15] = 30;
    contents[23] = 5;
    expect("both NULL", shinglebar_hello_write_any(NULL, 0, NULL, 0), SHINGLEBAR_REFUSAL_HELLO);
    expect("no parameters", shinglebar_hello_write_any(contents + 24, 24, NULL, 0), SHINGLEBAR_REFUSAL_HELLO);
    contents[7] = 0;
    expect("none, but numbers left over", shinglebar_hello_write_any(contents, 48, NULL, 0), SHINGLEBAR_REFUSAL_HELLO);
    contents[23] = 0;
    contents[15] = 0;
    expect("none", shinglebar_hello_write_any(contents, 32, NULL, 0), SHINGLEBAR_REFUSAL_PARAMETERS_MISSING);
    contents[7] = 1;
    contents[15] = 30;
    contents[23] = 5;
    expect("area NULL", shinglebar_hello_write_any(contents, 48, NULL, 0), SHINGLEBAR_REFUSAL_OUTPUT_LENGTH);
    expect("a byte short", shinglebar_hello_write_any(contents, 48, out, sizeof payload - 1),
           SHINGLEBAR_REFUSAL_OUTPUT_LENGTH);
    expect("nothing is written", out[0], 0);
    out[sizeof payload] = 0x5A;
    written = shinglebar_hello_write_any(contents, 48, out, sizeof out);
    expect("written", shinglebar_kind(written), SHINGLEBAR_HELLO_WRITE_WRITTEN);
    expect("length", shinglebar_hello_length(written), sizeof payload);
    for (at = 0; at < sizeof payload; at++)
        expect("a byte", out[at], payload[at]);
    expect("the rest stays", out[sizeof payload], 0x5A);
    return failures == 0 ? 0 : 1;
}
