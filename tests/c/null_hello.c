/* The inline call of hello_read with NULL, and a walk through the contents. Compiled as C and as C++. */
#include "shinglebar.h"

#include "expect.h"

static const uint8_t payload[] = {0xFB, 0x09, 0x00, 0x00, 0x01, 0x16, 0x04, 0x00, 0x1E, 0x00, 0x00,
                                  0xF2, 0x14, 0x00, 0x00, 0x00, 0x00, 0x00, 0x06, 0x05, 0x40, 0x80, 0x00, 0x12, 0x34,
                                  0x08, 0x06, 0x00, 0x01, 0x12, 0x34, 0x12, 0x35,
                                  0xFB, 0x0F, 0x00, 0x00, 0x01, 0x17, 0x0A, 0x40, 0x00, 0x00, 0x0A,
                                  0x02, 0x00, 0x00, 0x00, 0x00, 0x01};
static const uint64_t numbers[] = {1, 30, 0, 1, 1, 0x40, 0x8000, 0x1234, 1, 1, 2, 0x1234, 0x1235, 1, 0, 1, 10, 1,
                                   UINT64_C(0x020000000001)};

int main(void)
{
    uint8_t area[sizeof numbers + 1] = {0};
    struct shinglebar_contents contents;
    uint64_t read;
    size_t at;

    expect("both NULL", shinglebar_hello_read_any(NULL, 0, NULL, 0), SHINGLEBAR_REFUSAL_PARAMETERS_MISSING);
    expect("a lone byte", shinglebar_hello_read_any(payload, 1, NULL, 0), SHINGLEBAR_REFUSAL_HELLO);
    expect("area NULL", shinglebar_hello_read_any(payload, sizeof payload, NULL, 0), SHINGLEBAR_REFUSAL_OUTPUT_LENGTH);
    expect("a byte short", shinglebar_hello_read_any(payload, sizeof payload, area, sizeof numbers - 1),
           SHINGLEBAR_REFUSAL_OUTPUT_LENGTH);
    for (at = 0; at < sizeof area; at++)
        expect("nothing is written", area[at], 0);
    area[sizeof numbers] = 0x5A;
    read = shinglebar_hello_read_any(payload, sizeof payload, area, sizeof area);
    expect("read", shinglebar_kind(read), SHINGLEBAR_HELLO_READ_WRITTEN);
    expect("length", shinglebar_hello_length(read), sizeof numbers);
    expect("the rest stays", area[sizeof numbers], 0x5A);
    contents = shinglebar_contents_of(area, shinglebar_hello_length(read));
    for (at = 0; at < sizeof numbers / sizeof numbers[0]; at++)
        expect("a number", shinglebar_contents_next(&contents), numbers[at]);
    expect("none is missing", (uint64_t)contents.missing, 0);
    expect("no number is left", contents.left, 0);
    expect("behind the last", shinglebar_contents_next(&contents), 0);
    expect("one is missing", (uint64_t)contents.missing, 1);
    contents = shinglebar_contents_of(area, 7);
    expect("less than a number", shinglebar_contents_next(&contents), 0);
    expect("is missing", (uint64_t)contents.missing, 1);
    return failures == 0 ? 0 : 1;
}
