/*
 * Changes one part of an input (input.h) and leaves the others where they are: a byte more or less in the
 * settings would make other settings, another table and another frame of all that follows.
 */
#include <stdint.h>

#include "input.h"

/* libFuzzer's own changes of bytes. */
size_t LLVMFuzzerMutate(uint8_t *bytes, size_t length, size_t most);
size_t LLVMFuzzerCustomMutator(uint8_t *bytes, size_t length, size_t most, unsigned seed);

/* Changes a part that keeps its length. */
static void change(uint8_t *part, size_t length)
{
    if (length > 0)
        LLVMFuzzerMutate(part, length, length);
}

/* Steps over the length of a map or table, which is cut where the input ends: 1, or 0 if the input ends before. */
static int sized(const uint8_t *bytes, size_t length, size_t *at, size_t *part)
{
    if (length < *at + 2)
        return 0;
    *part = (size_t)bytes[*at] << 8 | bytes[*at + 1];
    *at += 2;
    if (*part > length - *at)
        *part = length - *at;
    return 1;
}

size_t LLVMFuzzerCustomMutator(uint8_t *bytes, size_t length, size_t most, unsigned seed)
{
    if (length == 0)
        return LLVMFuzzerMutate(bytes, length, most);
    enum call call = call_of(bytes[0]);
    size_t numbers = numbers_length(call), map = 0, table = 0, front = 1 + numbers;
    if (has_map(call) && !sized(bytes, length, &front, &map))
        return LLVMFuzzerMutate(bytes, length, most);
    size_t map_at = front;
    front += map;
    if (has_table(call) && !sized(bytes, length, &front, &table))
        return LLVMFuzzerMutate(bytes, length, most);
    if (length < front)
        return LLVMFuzzerMutate(bytes, length, most);
    size_t frame = front + table;
    switch (seed % 16) {
    case 0:
        return LLVMFuzzerMutate(bytes, length, most);
    case 1:
        bytes[0] ^= 8;
        return length;
    case 2:
        change(bytes + 1, numbers);
        return length;
    case 6:
    case 7:
        if (map > 0) {
            change(bytes + map_at, map);
            return length;
        }
        /* fall through */
    case 3:
    case 4:
    case 5:
        change(bytes + front, table);
        return length;
    default:
        if (call == AGE || call == LOOKUP || call == SPOILT || call == FREE_SLOT) {
            change(bytes + 1, frame - 1);
            return length;
        }
        return frame < most ? frame + LLVMFuzzerMutate(bytes + frame, length - frame, most - frame)
                            : length;
    }
}
