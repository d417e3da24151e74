/*
 * A receive and an ingress that do one thing wrong, named by SHINGLEBAR_FAULT: the fuzz target is compiled to
 * call them and must end on its corpus. With no fault named they are the library's.
 */
#include <stdlib.h>
#include <string.h>

#include "shinglebar.h"

uint64_t wrong_receive(uint64_t port, uint64_t inner, uint32_t nickname, uint32_t compact,
                       uint32_t confidence, uint32_t seconds, const uint8_t *frame, size_t frame_len,
                       uint8_t *table, size_t table_len, uint8_t *out, size_t out_len);

uint64_t wrong_ingress(uint64_t port, uint64_t inner, uint32_t nickname, uint32_t compact,
                       uint32_t confidence, uint32_t seconds, const uint8_t *map, size_t map_len,
                       uint64_t outer_destination, uint64_t outer_source, uint32_t m,
                       uint32_t hop_count, uint32_t egress, uint32_t ingress, const uint8_t *frame,
                       size_t frame_len, uint8_t *out, size_t out_len);

static int is(const char *fault)
{
    const char *named = getenv("SHINGLEBAR_FAULT");
    return named != NULL && strcmp(named, fault) == 0;
}

uint64_t wrong_receive(uint64_t port, uint64_t inner, uint32_t nickname, uint32_t compact,
                       uint32_t confidence, uint32_t seconds, const uint8_t *frame, size_t frame_len,
                       uint8_t *table, size_t table_len, uint8_t *out, size_t out_len)
{
    uint64_t word =
        shinglebar_receive(port, inner, nickname, compact, confidence, seconds, frame, frame_len,
                           table, table_len, out, out_len);
    int delivered = shinglebar_kind(word) == SHINGLEBAR_RECEIVE_DELIVERED;
    int flushed = shinglebar_kind(word) == SHINGLEBAR_RECEIVE_FLUSHED;
    size_t length = shinglebar_native_length(word);

    if (is("a stray bit") && delivered)
        word |= (uint64_t)1 << 26;
    if (is("a stray bit in a refusal") && shinglebar_is_refusal(word))
        word |= 0x100;
    if (is("a refusal of other calls") && word == SHINGLEBAR_REFUSAL_CUT)
        word = SHINGLEBAR_REFUSAL_GENERAL;
    if (is("an unknown kind") && word == SHINGLEBAR_RECEIVE_ONWARD)
        word = 68;
    if (is("a refusal changes the table") && word == SHINGLEBAR_REFUSAL_PAYLOAD && table_len > 0)
        table[table_len - 1] ^= 1;
    if (is("a refusal changes the output area") && shinglebar_is_refusal(word) && out_len > 0)
        out[0] ^= 1;
    if (is("onward changes the table") && word == SHINGLEBAR_RECEIVE_ONWARD)
        table[0] ^= 1;
    if (is("a byte behind the native frame") && delivered && out_len > length)
        out[length] ^= 1;
    if (is("two records learned") && delivered)
        memset(table, 0x55, table_len);
    if (is("a flush counts one more") && flushed)
        word += 0x100;
    if (is("a flush changes a record that stays") && flushed)
        table[0] ^= 1;
    if (is("a read behind the frame"))
        word ^= (uint64_t)0 & ((const volatile uint8_t *)frame)[frame_len];
    if (is("a read before the frame"))
        word ^= (uint64_t)0 & *((const volatile uint8_t *)frame - 1);
    if (is("a read behind the table"))
        word ^= (uint64_t)0 & ((volatile uint8_t *)table)[table_len];
    if (is("a write before the output area"))
        *((volatile uint8_t *)out - 1) = 0;
    if (is("a write to the frame") && frame_len > 0)
        *(volatile uint8_t *)(uintptr_t)frame = frame[0];
    return word;
}

uint64_t wrong_ingress(uint64_t port, uint64_t inner, uint32_t nickname, uint32_t compact,
                       uint32_t confidence, uint32_t seconds, const uint8_t *map, size_t map_len,
                       uint64_t outer_destination, uint64_t outer_source, uint32_t m,
                       uint32_t hop_count, uint32_t egress, uint32_t ingress, const uint8_t *frame,
                       size_t frame_len, uint8_t *out, size_t out_len)
{
    uint64_t word = shinglebar_ingress(port, inner, nickname, compact, confidence, seconds, map,
                                       map_len, outer_destination, outer_source, m, hop_count,
                                       egress, ingress, frame, frame_len, out, out_len);
    int written = shinglebar_kind(word) == SHINGLEBAR_INGRESS_WRITTEN;

    if (is("ingress tells a byte less") && written)
        word -= 0x100;
    if (is("a map that is refused with 2") && word == SHINGLEBAR_REFUSAL_MAP)
        word = SHINGLEBAR_REFUSAL_TABLE_LENGTH;
    if (is("a read behind the map"))
        word ^= (uint64_t)0 & ((const volatile uint8_t *)map)[map_len];
    if (is("a write to the map") && map_len > 0)
        *(volatile uint8_t *)(uintptr_t)map = map[0];
    return word;
}
