/*
 * A fuzz target over shinglebar_hello_write, for libFuzzer or with main.c. fuzz/README.md says how to run it.
 *
 * An input: length of the output area (2 bytes, most significant first), and the rest is the contents area of a Smart-Hello.
 *
 * After the call: a refusal is 25, 26 or 16 and has changed nothing; behind what is written nothing has changed; the word is the one that a
 * judgement here gives of the area's numbers; the bytes are those of its sub-TLVs, by kind and in order, and a TLV is opened exactly where
 * the one before is of another kind or has no room; shinglebar_hello_read gives the same area back.
 */
#include <stdint.h>
#include <stdio.h>
#include <stdlib.h>
#include <string.h>

#include "shinglebar.h"

int LLVMFuzzerInitialize(int *count, char ***arguments);
int LLVMFuzzerTestOneInput(const uint8_t *bytes, size_t length);

#define ROOM_MAX 65535
#define CONTENTS_MAX (8 * ROOM_MAX)
#define VALUE_MAX 255
#define CAPABILITY 242
#define GENINFO 251
#define NICKNAME 6
#define TREES 8
#define PARAMETERS 22
#define SMART_MAC 23

static void check(int holds, uint64_t word, const char *what)
{
    if (!holds) {
        fprintf(stderr, "hello_write: %#llx: %s\n", (unsigned long long)word, what);
        abort();
    }
}

/* A walk over the area's numbers. Where `out` is there, it compares what is written with what is due. */
struct walk {
    struct shinglebar_contents contents;
    int bad;
    const uint8_t *out;
    size_t at;
    unsigned holder;
    size_t used;
    uint64_t word;
};

static void due(struct walk *walk, uint64_t number, size_t width)
{
    for (size_t byte = width; byte-- > 0; walk->at++)
        if (walk->out != NULL)
            check(walk->out[walk->at] == (number >> 8 * byte & 0xFF), walk->word, "another byte is due");
}

/* The next number, which has at most so many bits. */
static uint64_t next(struct walk *walk, unsigned bits)
{
    uint64_t number = shinglebar_contents_next(&walk->contents);
    walk->bad |= walk->contents.missing || (bits < 64 && number >> bits != 0);
    return number;
}

/* A count, and whether the walk goes on: an area that has been found bad is not walked through to the end of what it counts. */
static uint64_t count(struct walk *walk, uint64_t most)
{
    uint64_t number = next(walk, 64);
    walk->bad |= number > most;
    return walk->bad ? 0 : number;
}

/* A sub-TLV of so many bytes starts: its TLV's head where none is open that has room, and its own. The length of a TLV is compared at its
 * end, when it is known. */
static void sub(struct walk *walk, unsigned holder, unsigned type, size_t length)
{
    size_t head = holder == GENINFO ? 3 : 5;
    if (walk->holder != holder || walk->used + 2 + length > VALUE_MAX) {
        if (walk->out != NULL && walk->holder != 0)
            check(walk->out[walk->at - walk->used - 1] == walk->used, walk->word, "another length of a TLV is due");
        due(walk, holder, 1);
        walk->at++;
        due(walk, holder == GENINFO ? 1 : 0, head);
        walk->holder = holder;
        walk->used = head;
    }
    walk->used += 2 + length;
    due(walk, type, 1);
    due(walk, length, 1);
}

static void list(struct walk *walk, uint64_t numbers, unsigned width)
{
    for (; numbers > 0 && !walk->bad; numbers--)
        due(walk, next(walk, 8 * width), width);
}

static void nicknames(struct walk *walk)
{
    uint64_t records = count(walk, 49);
    sub(walk, CAPABILITY, NICKNAME, (size_t)(5 * records));
    for (; records > 0 && !walk->bad; records--) {
        list(walk, 1, 1);
        list(walk, 2, 2);
    }
}

static void trees(struct walk *walk)
{
    uint64_t start = next(walk, 16), roots = count(walk, 123);
    sub(walk, CAPABILITY, TREES, (size_t)(2 + 2 * roots));
    due(walk, start, 2);
    list(walk, roots, 2);
}

static void smart_mac(struct walk *walk)
{
    uint64_t fine = next(walk, 1), multihomed = next(walk, 1);
    uint64_t label = next(walk, fine == 1 ? 24 : 12), macs = count(walk, 41);
    sub(walk, GENINFO, SMART_MAC, (size_t)(4 + 6 * macs));
    due(walk, fine << 31 | multihomed << 30 | label, 4);
    list(walk, macs, 6);
}

/* Walks through the area; how many Smart-Parameters it has. */
static uint64_t walk_through(struct walk *walk)
{
    uint64_t parameters = count(walk, 1), left;
    if (parameters == 1) {
        sub(walk, GENINFO, PARAMETERS, 4);
        list(walk, 2, 2);
    }
    for (left = count(walk, UINT64_MAX); left > 0 && !walk->bad; left--)
        nicknames(walk);
    for (left = count(walk, UINT64_MAX); left > 0 && !walk->bad; left--)
        trees(walk);
    for (left = count(walk, UINT64_MAX); left > 0 && !walk->bad; left--)
        smart_mac(walk);
    walk->bad |= walk->contents.left != 0;
    return parameters;
}

/* The word that is due. */
static uint64_t due_word(const uint8_t *area, size_t length, size_t room)
{
    struct walk walk = {shinglebar_contents_of(area, length), length % 8 != 0, NULL, 0, 0, 0, 0};
    uint64_t parameters = walk_through(&walk);
    if (walk.bad)
        return SHINGLEBAR_REFUSAL_HELLO;
    if (parameters == 0)
        return SHINGLEBAR_REFUSAL_PARAMETERS_MISSING;
    return walk.at > room ? SHINGLEBAR_REFUSAL_OUTPUT_LENGTH : SHINGLEBAR_HELLO_WRITE_WRITTEN | (uint64_t)walk.at << 8;
}

static void check_payload(uint64_t word, const uint8_t *area, size_t length, const uint8_t *out)
{
    static uint8_t again[CONTENTS_MAX];
    struct walk walk = {shinglebar_contents_of(area, length), 0, out, 0, 0, 0, word};
    walk_through(&walk);
    check(out[walk.at - walk.used - 1] == walk.used, word, "another length of the last TLV is due");
    uint64_t read = shinglebar_hello_read_any(out, shinglebar_hello_length(word), again, sizeof again);
    check(read == (SHINGLEBAR_HELLO_READ_WRITTEN | (uint64_t)length << 8), word, "it is not read as so many numbers");
    check(memcmp(again, area, length) == 0, word, "it is read as other numbers");
}

int LLVMFuzzerInitialize(int *count, char ***arguments)
{
    (void)count;
    (void)arguments;
    return 0;
}

int LLVMFuzzerTestOneInput(const uint8_t *bytes, size_t length)
{
    static uint8_t out[ROOM_MAX + 1];
    size_t room = length < 2 ? 0 : (size_t)bytes[0] << 8 | bytes[1];
    const uint8_t *area = length < 2 ? bytes : bytes + 2;
    size_t area_length = length < 2 ? 0 : length - 2, at;
    if (area_length > CONTENTS_MAX)
        return 0;
    memset(out, 0x5A, sizeof out);
    uint64_t word = shinglebar_hello_write_any(area, area_length, out, room);
    check(word == due_word(area, area_length, room), word, "another word is due");
    for (at = shinglebar_is_refusal(word) ? 0 : shinglebar_hello_length(word); at < sizeof out; at++)
        check(out[at] == 0x5A, word, "the area is changed behind what is written");
    if (!shinglebar_is_refusal(word))
        check_payload(word, area, area_length, out);
    return 0;
}
