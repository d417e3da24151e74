/*
 * A fuzz target over both models' flush, for libFuzzer or with main.c. fuzz/README.md says how to run it.
 *
 * An input: ingress nickname (4 bytes), table length (2) and bytes, and the rest is the payload; most significant byte first.
 *
 * After both calls on equal tables: a refusal has changed nothing; where the full model accepts the message the small one does, has
 * cleared every VLAN record that the full one has, and changed none but learned records, which are free.
 */
#include <stdint.h>
#include <stdio.h>
#include <stdlib.h>
#include <string.h>

#include "shinglebar.h"

int LLVMFuzzerInitialize(int *count, char ***arguments);
int LLVMFuzzerTestOneInput(const uint8_t *bytes, size_t length);

static void check(int holds, uint64_t word, const char *what)
{
    if (!holds) {
        fprintf(stderr, "flush_vlan_only: %#llx: %s\n", (unsigned long long)word, what);
        abort();
    }
}

static void check_slots(uint64_t word, const uint8_t *before, const uint8_t *small, const uint8_t *full, size_t length)
{
    static const uint8_t empty[SHINGLEBAR_RECORD_LENGTH];
    unsigned cleared = 0;
    size_t at;
    for (at = 0; at < length; at += sizeof empty) {
        struct shinglebar_record record = shinglebar_unpack_record(before + at);
        int changed = memcmp(before + at, small + at, sizeof empty) != 0;
        int gone = full != NULL && memcmp(before + at, full + at, sizeof empty) != 0;
        cleared += changed;
        check(!changed || record.state == SHINGLEBAR_RECORD_LEARNED, word, "a record is changed that was not learned");
        check(!changed || memcmp(small + at, empty, sizeof empty) == 0, word, "a changed record is not free");
        check(!gone || changed || record.label_kind != SHINGLEBAR_LABEL_VLAN, word, "a VLAN record that the full model cleared stays");
    }
    check(cleared == shinglebar_count(word), word, "another count of records is cleared");
}

int LLVMFuzzerInitialize(int *count, char ***arguments)
{
    (void)count;
    (void)arguments;
    return 0;
}

int LLVMFuzzerTestOneInput(const uint8_t *bytes, size_t length)
{
    static uint8_t before[1 << 16], small[1 << 16], full[1 << 16];
    uint32_t ingress;
    uint64_t word, other;
    size_t table;
    if (length < 6)
        return 0;
    ingress = (uint32_t)bytes[0] << 24 | (uint32_t)bytes[1] << 16 | (uint32_t)bytes[2] << 8 | bytes[3];
    table = (size_t)bytes[4] << 8 | bytes[5];
    bytes += 6;
    length -= 6;
    if (table > length)
        table = length;
    memcpy(before, bytes, table);
    memcpy(small, bytes, table);
    memcpy(full, bytes, table);
    bytes += table;
    length -= table;
    word = shinglebar_flush_vlan_only_any(ingress, bytes, length, small, table);
    other = shinglebar_flush_any(ingress, bytes, length, full, table);
    if (shinglebar_is_refusal(word)) {
        check(word == other, word, "the full model accepts it");
        check(memcmp(before, small, table) == 0, word, "a refusal has changed the table");
        return 0;
    }
    check(shinglebar_kind(word) == SHINGLEBAR_FLUSH_FLUSHED && word >> 24 == 0, word, "no word of the call");
    check_slots(word, before, small, shinglebar_is_refusal(other) ? NULL : full, table);
    return 0;
}
