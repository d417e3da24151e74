/*
 * A fuzz target over shinglebar_flush_portion, for libFuzzer or with main.c. fuzz/README.md says how to run it.
 *
 * An input: ingress nickname (4 bytes), slot (8), k (8), table length (2) and bytes, and the rest is the payload; most significant byte
 * first. Unless the first byte of the ingress nickname has its high bit set, slot, k and table length are brought near their ranges.
 *
 * After the call: the word is one that the call can give; a refusal has changed nothing; next and examined are what slot and k say; no
 * byte outside the portion has changed; and each slot of it is what shinglebar_flush makes of it in the same table.
 */
#include <stdint.h>
#include <stdio.h>
#include <stdlib.h>
#include <string.h>

#include "shinglebar.h"

int LLVMFuzzerInitialize(int *count, char ***arguments);
int LLVMFuzzerTestOneInput(const uint8_t *bytes, size_t length);

static const uint8_t *at;
static size_t left;

static uint64_t number(unsigned bytes)
{
    uint64_t value = 0;
    while (bytes-- > 0) {
        value = value << 8 | (left > 0 ? *at : 0);
        at += left > 0;
        left -= left > 0;
    }
    return value;
}

static void check(int holds, uint64_t word, const char *what)
{
    if (!holds) {
        fprintf(stderr, "flush_portion: %#llx: %s\n", (unsigned long long)word, what);
        abort();
    }
}

static void check_done(uint64_t word, uint64_t slot, uint64_t k, const uint8_t *before, const uint8_t *after, const uint8_t *whole,
                       size_t length)
{
    uint64_t slots = length / SHINGLEBAR_RECORD_LENGTH, steps = k < slots - slot ? k : slots - slot;
    size_t from = (size_t)slot * SHINGLEBAR_RECORD_LENGTH, to = from + (size_t)steps * SHINGLEBAR_RECORD_LENGTH, i;
    unsigned changed = 0;
    check(shinglebar_kind(word) == SHINGLEBAR_FLUSH_PORTION_DONE && word >> 56 == 0, word, "no word of the call");
    check(shinglebar_examined(word) == steps && shinglebar_next_slot(word) == slot + steps, word, "other steps");
    check(memcmp(before, after, from) == 0 && memcmp(before + to, after + to, length - to) == 0, word, "a byte outside is changed");
    check(memcmp(whole + from, after + from, to - from) == 0, word, "the whole flush makes something else of it");
    for (i = from; i < to; i += SHINGLEBAR_RECORD_LENGTH)
        changed += memcmp(before + i, after + i, SHINGLEBAR_RECORD_LENGTH) != 0;
    check(changed == shinglebar_count(word), word, "another count of records is cleared");
}

int LLVMFuzzerInitialize(int *count, char ***arguments)
{
    (void)count;
    (void)arguments;
    return 0;
}

int LLVMFuzzerTestOneInput(const uint8_t *bytes, size_t length)
{
    static uint8_t before[1 << 16], after[1 << 16], whole[1 << 16];
    at = bytes;
    left = length;
    uint32_t ingress = (uint32_t)number(4);
    uint64_t slot = number(8), k = number(8), word, flushed;
    size_t table = (size_t)number(2);
    if (table > left)
        table = left;
    if (ingress >> 31 == 0) {
        table -= table % SHINGLEBAR_RECORD_LENGTH;
        slot %= table / SHINGLEBAR_RECORD_LENGTH + 2;
        k %= table / SHINGLEBAR_RECORD_LENGTH + 3;
    }
    memcpy(before, at, table);
    memcpy(after, at, table);
    memcpy(whole, at, table);
    at += table;
    left -= table;
    word = shinglebar_flush_portion_any(ingress, at, left, slot, k, after, table);
    flushed = shinglebar_flush_any(ingress, at, left, whole, table);
    if (word == SHINGLEBAR_REFUSAL_PORTION)
        check(k == 0 || slot >= table / SHINGLEBAR_RECORD_LENGTH, word, "slot and k are good");
    else if (shinglebar_is_refusal(word))
        check(word == flushed, word, "the whole flush answers otherwise");
    if (shinglebar_is_refusal(word))
        check(memcmp(before, after, table) == 0, word, "a refusal has changed the table");
    else
        check_done(word, slot, k, before, after, whole, table);
    return 0;
}
