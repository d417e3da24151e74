/*
 * A fuzz target over shinglebar_why, for libFuzzer or with main.c. fuzz/README.md says how to run it.
 *
 * An input: ingress nickname (4 bytes), slot (8), table length (2) and bytes, and the rest is the payload; most significant byte first.
 * Unless the first byte of the ingress nickname has its high bit set, slot and table length are brought near their ranges.
 *
 * After the call: the word is one that the call can give; no byte has changed; a refusal is that of shinglebar_flush, or 24 for a slot that
 * is not in the table; the record is cleared exactly if shinglebar_flush changes its bytes; and the places that are named are in the payload
 * and of a type that brings labels or MACs.
 */
#include <stdint.h>
#include <stdio.h>
#include <stdlib.h>
#include <string.h>

#include "shinglebar.h"

int LLVMFuzzerInitialize(int *count, char ***arguments);
int LLVMFuzzerTestOneInput(const uint8_t *bytes, size_t length);

static const uint8_t *at;
static size_t left;

static uint64_t number(unsigned bytes)
{
    uint64_t value = 0;
    while (bytes-- > 0) {
        value = value << 8 | (left > 0 ? *at : 0);
        at += left > 0;
        left -= left > 0;
    }
    return value;
}

static void check(int holds, uint64_t word, const char *what)
{
    if (!holds) {
        fprintf(stderr, "why: %#llx: %s\n", (unsigned long long)word, what);
        abort();
    }
}

/* The type of the TLV at a place of a good payload without blocks, or -1 if there is none. */
static int type_at(const uint8_t *payload, size_t length, uint32_t place)
{
    size_t from = 2 + 2 * (size_t)payload[0];
    for (; length >= from + 2; place--) {
        if (place == 0)
            return payload[from];
        from += 2 + (size_t)payload[from + 1];
    }
    return -1;
}

static void check_places(uint64_t word, const uint8_t *payload, size_t length, unsigned nickname)
{
    unsigned listed = payload[0], blocks = payload[1 + 2 * (size_t)listed], place = shinglebar_nickname_place(word);
    int label = type_at(payload, length, shinglebar_label_place(word));
    int mac = type_at(payload, length, shinglebar_mac_place(word));
    check((word >> 62 & 1) == 0, word, "a stray bit");
    check(shinglebar_is_sender(word) == (listed == 0), word, "sender without K-nicks 0, or K-nicks 0 without sender");
    check(listed == 0 ? place == 0 : place < listed, word, "no place of a nickname");
    check(listed == 0 || (payload[1 + 2 * place] << 8 | payload[2 + 2 * place]) == (int)nickname, word, "another nickname there");
    check(shinglebar_label_is_by_tlv(word) == (blocks == 0), word, "blocks taken for TLVs, or TLVs for blocks");
    if (blocks > 0) {
        check(shinglebar_label_place(word) < blocks && shinglebar_is_every_mac(word), word, "no place of a block, or a MAC with blocks");
        return;
    }
    check(label >= 1 && label <= 6, word, "a TLV that brings no label");
    check(shinglebar_is_every_mac(word) ? shinglebar_mac_place(word) == 0 : mac == 7 || mac == 8, word, "a TLV that brings no MAC");
}

static void check_answer(uint64_t word, const uint8_t *before, const uint8_t *after, const uint8_t *payload, size_t length)
{
    struct shinglebar_record record = shinglebar_unpack_record(before);
    unsigned kind = shinglebar_kind(word);
    int cleared = memcmp(before, after, SHINGLEBAR_RECORD_LENGTH) != 0;
    check(kind <= SHINGLEBAR_WHY_CLEARED && (kind == SHINGLEBAR_WHY_CLEARED || word == kind), word, "no word of the call");
    check((kind == SHINGLEBAR_WHY_CLEARED) == cleared, word, "the flush does otherwise");
    check((kind == SHINGLEBAR_WHY_FREE) == (record.state == SHINGLEBAR_RECORD_FREE)
              && (kind == SHINGLEBAR_WHY_SPOILT) == (record.state == SHINGLEBAR_RECORD_SPOILT)
              && (kind == SHINGLEBAR_WHY_CONFIGURED) == (record.state == SHINGLEBAR_RECORD_CONFIGURED),
          word, "another state");
    if (cleared)
        check_places(word, payload, length, record.nickname);
}

int LLVMFuzzerInitialize(int *count, char ***arguments)
{
    (void)count;
    (void)arguments;
    return 0;
}

int LLVMFuzzerTestOneInput(const uint8_t *bytes, size_t length)
{
    static uint8_t before[1 << 16], after[1 << 16];
    at = bytes;
    left = length;
    uint32_t ingress = (uint32_t)number(4);
    uint64_t slot = number(8), word, flushed;
    size_t table = (size_t)number(2);
    if (table > left)
        table = left;
    if (ingress >> 31 == 0) {
        table -= table % SHINGLEBAR_RECORD_LENGTH;
        slot %= table / SHINGLEBAR_RECORD_LENGTH + 2;
    }
    memcpy(before, at, table);
    memcpy(after, at, table);
    at += table;
    left -= table;
    word = shinglebar_why_any(ingress, at, left, slot, before, table);
    check(memcmp(before, after, table) == 0, word, "the table is changed");
    flushed = shinglebar_flush_any(ingress, at, left, after, table);
    if (word == SHINGLEBAR_REFUSAL_PORTION)
        check(slot >= table / SHINGLEBAR_RECORD_LENGTH && flushed != SHINGLEBAR_REFUSAL_TABLE_LENGTH, word, "the slot is there");
    else if (shinglebar_is_refusal(word))
        check(word == flushed, word, "the flush answers otherwise");
    else
        check_answer(word, before + slot * SHINGLEBAR_RECORD_LENGTH, after + slot * SHINGLEBAR_RECORD_LENGTH, at, left);
    return 0;
}
