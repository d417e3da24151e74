/*
 * A fuzz target over the calls on a watch, for libFuzzer: beside boundary.c, and run as it is.
 *
 * An input is a watch (8 bytes) and calls on it, most significant byte first: which call (1; modulo 4: reset, tick, event, send), the
 * reading (4), the kind of event (1), its time (2), Compact (1), and for send the length of the frame (1) and its bytes. Bytes that are
 * missing are 0. After each call:
 *
 * - the word is one that the call can give;
 * - a refusal has changed neither the watch nor the working area, and any other answer has left the reading brought;
 * - a tick has left no more than before, an event no less than a tick and than ten seconds, and nothing is compacted while seconds are left;
 * - the frame itself has changed no byte of the working area.
 */
#include <stdio.h>
#include <stdlib.h>
#include <string.h>

#include "shinglebar.h"

int LLVMFuzzerInitialize(int *count, char ***arguments);
int LLVMFuzzerTestOneInput(const uint8_t *bytes, size_t length);

int LLVMFuzzerInitialize(int *count, char ***arguments)
{
    (void)count;
    (void)arguments;
    return 0;
}

static const uint8_t *at, *end;

static uint32_t number(int width)
{
    uint32_t number = 0;
    while (width-- > 0)
        number = number << 8 | (at < end ? *at++ : 0u);
    return number;
}

static void check(int holds, uint64_t word, const char *what)
{
    if (!holds) {
        fprintf(stderr, "watch: %#llx: %s\n", (unsigned long long)word, what);
        abort();
    }
}

/* The frame's bytes, or the whole of what is left. */
static uint64_t send(struct shinglebar_watch *watch, uint32_t now, uint32_t compact)
{
    static uint8_t work[SHINGLEBAR_COMPACT_LENGTH_MAX];
    struct shinglebar_watch ticked = *watch;
    size_t length = number(1), left = (size_t)(end - at), i;
    uint64_t word;
    length = length < left ? length : left;
    memset(work, 0xEE, sizeof work);
    word = shinglebar_send_watched(0x0200000000A1u, 0x0200000000B1u, 0x0102, compact, 20, 0, watch, now, at, length, work,
                                   sizeof work);
    at += length;
    shinglebar_watch_tick(&ticked, now);
    check(word <= 18 || word == SHINGLEBAR_SEND_ITSELF || (word & ~(uint64_t)0xFFFF00u) == SHINGLEBAR_SEND_COMPACTED, word,
          "no answer of send");
    check((compact > 1) == (word == SHINGLEBAR_REFUSAL_SETTINGS), word, "Compact is judged as it arrives");
    if (shinglebar_kind(word) == SHINGLEBAR_SEND_COMPACTED)
        check(ticked.left == 0 && compact == 1, word, "compacted though stopped");
    else
        for (i = 0; i < sizeof work; i++)
            check(work[i] == 0xEE, word, "the working area is changed");
    return word;
}

int LLVMFuzzerTestOneInput(const uint8_t *bytes, size_t length)
{
    struct shinglebar_watch watch;
    at = bytes;
    end = bytes + length;
    watch.left = number(4);
    watch.reading = number(4);
    while (at < end) {
        struct shinglebar_watch before = watch, ticked = watch;
        uint32_t call = number(1) % 4, now = number(4), kind = number(1), time = number(2), compact = number(1);
        uint64_t word;
        shinglebar_watch_tick(&ticked, now);
        check(ticked.left <= before.left && ticked.reading == now, 0, "a tick");
        word = call == 0   ? shinglebar_watch_reset(&watch, now)
               : call == 1 ? shinglebar_watch_tick(&watch, now)
               : call == 2 ? shinglebar_watch_event(&watch, now, kind, (uint16_t)time)
                           : send(&watch, now, compact);
        if (shinglebar_is_refusal(word)) {
            check(memcmp(&watch, &before, sizeof watch) == 0, word, "a refusal changes the watch");
            check(call == 3 || (call == 2 && kind > 3 && word == 1), word, "no refusal of it");
            continue;
        }
        check(watch.reading == now, word, "another reading");
        if (call < 3)
            check(word == (64 | (uint64_t)watch.left << 8), word, "another word");
        if (call == 0)
            check(watch.left == 0, word, "a stop after a reset");
        if (call == 2)
            check(kind <= 3 && watch.left >= ticked.left && watch.left >= 10, word, "a stop is shortened");
        if (call == 1 || call == 3)
            check(watch.left == ticked.left, word, "other seconds left");
    }
    return 0;
}
