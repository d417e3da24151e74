/*
 * A fuzz target over shinglebar_hello_read, for libFuzzer or with main.c. fuzz/README.md says how to run it.
 *
 * An input: length of the contents area (2 bytes, most significant first), and the rest is the payload of a Smart-Hello.
 *
 * After the call: a refusal is 25, 26 or 16 and has changed nothing; behind what is written nothing has changed; the payload that a walk
 * here takes for good is read, and no other; the numbers of the area are those of its sub-TLVs, by kind and in order, and 16 is answered
 * exactly where they have no room.
 */
#include <stdint.h>
#include <stdio.h>
#include <stdlib.h>
#include <string.h>

#include "shinglebar.h"

int LLVMFuzzerInitialize(int *count, char ***arguments);
int LLVMFuzzerTestOneInput(const uint8_t *bytes, size_t length);

#define ROOM_MAX 65535
#define CAPABILITY 242
#define GENINFO 251
#define NICKNAME 6
#define TREES 8
#define PARAMETERS 22
#define SMART_MAC 23

static void check(int holds, uint64_t word, const char *what)
{
    if (!holds) {
        fprintf(stderr, "hello_read: %#llx: %s\n", (unsigned long long)word, what);
        abort();
    }
}

/* What a walk finds of one type: how many, and the numbers that the area has for them. */
struct found {
    size_t count;
    size_t numbers;
};

/* A walk looks at one type; where `contents` is there, it compares the numbers of the area with its sub-TLVs. */
struct walk {
    unsigned type;
    struct found found;
    struct shinglebar_contents *contents;
    uint64_t word;
};

static uint64_t number(const uint8_t *bytes, size_t width)
{
    uint64_t made = 0;
    for (size_t at = 0; at < width; at++)
        made = made << 8 | bytes[at];
    return made;
}

static void due(struct walk *walk, uint64_t number)
{
    walk->found.numbers++;
    if (walk->contents != NULL)
        check(shinglebar_contents_next(walk->contents) == number, walk->word, "another number is due");
}

static void each(struct walk *walk, const uint8_t *bytes, size_t length, size_t width)
{
    for (size_t at = 0; at < length; at += width)
        due(walk, number(bytes + at, width));
}

/* The numbers of a sub-TLV that has a length its type allows. */
static void numbers_of(struct walk *walk, const uint8_t *value, size_t length)
{
    uint64_t flags;
    walk->found.count++;
    switch (walk->type) {
    case PARAMETERS:
        each(walk, value, 4, 2);
        break;
    case NICKNAME:
        due(walk, length / 5);
        for (size_t at = 0; at < length; at += 5) {
            due(walk, value[at]);
            each(walk, value + at + 1, 4, 2);
        }
        break;
    case TREES:
        due(walk, number(value, 2));
        due(walk, length / 2 - 1);
        each(walk, value + 2, length - 2, 2);
        break;
    default:
        flags = value[0];
        due(walk, flags >> 7);
        due(walk, flags >> 6 & 1);
        due(walk, number(value + 1, 3) & (flags >> 7 ? 0xFFFFFFu : 0xFFFu));
        due(walk, (length - 4) / 6);
        each(walk, value + 4, length - 4, 6);
    }
}

static int allowed(unsigned type, size_t length)
{
    switch (type) {
    case PARAMETERS:
        return length == 4;
    case NICKNAME:
        return length % 5 == 0;
    case TREES:
        return length % 2 == 0 && length >= 2;
    case SMART_MAC:
        return length >= 4 && (length - 4) % 6 == 0;
    default:
        return 1;
    }
}

/* Whether a TLV knows this type of sub-TLV. */
static int knows(unsigned holder, unsigned type)
{
    return holder == CAPABILITY ? type == NICKNAME || type == TREES : type == PARAMETERS || type == SMART_MAC;
}

/* Whether the sub-TLVs of a TLV are good. */
static int subs(struct walk *walk, unsigned holder, const uint8_t *bytes, size_t length)
{
    while (length > 0) {
        if (length < 2 || (size_t)2 + bytes[1] > length)
            return 0;
        if (knows(holder, bytes[0])) {
            if (!allowed(bytes[0], bytes[1]))
                return 0;
            if (bytes[0] == walk->type)
                numbers_of(walk, bytes + 2, bytes[1]);
        }
        length -= (size_t)2 + bytes[1];
        bytes += (size_t)2 + bytes[1];
    }
    return 1;
}

static int tlv(struct walk *walk, unsigned type, const uint8_t *value, size_t length)
{
    size_t head;
    if (type == CAPABILITY)
        return length >= 5 && subs(walk, type, value + 5, length - 5);
    if (type != GENINFO)
        return 1;
    if (length < 3)
        return 0;
    if (number(value + 1, 2) != 1)
        return 1;
    head = 3 + (value[0] & 0x04 ? 4u : 0u) + (value[0] & 0x08 ? 16u : 0u);
    return length >= head && subs(walk, type, value + head, length - head);
}

/* Whether the payload is good, but for the number of Smart-Parameters. */
static int walk_through(struct walk *walk, const uint8_t *payload, size_t length)
{
    while (length > 0) {
        if (length < 2 || (size_t)2 + payload[1] > length || !tlv(walk, payload[0], payload + 2, payload[1]))
            return 0;
        length -= (size_t)2 + payload[1];
        payload += (size_t)2 + payload[1];
    }
    return 1;
}

static const unsigned TYPES[] = {PARAMETERS, NICKNAME, TREES, SMART_MAC};

/* The word that is due. */
static uint64_t due_word(const uint8_t *payload, size_t length, size_t room)
{
    size_t numbers = 0;
    for (size_t at = 0; at < 4; at++) {
        struct walk walk = {TYPES[at], {0, 0}, NULL, 0};
        if (!walk_through(&walk, payload, length) || (TYPES[at] == PARAMETERS && walk.found.count > 1))
            return SHINGLEBAR_REFUSAL_HELLO;
        if (TYPES[at] == PARAMETERS && walk.found.count == 0)
            numbers = (size_t)1 << 40;
        numbers += 1 + walk.found.numbers;
    }
    if (numbers >> 40)
        return SHINGLEBAR_REFUSAL_PARAMETERS_MISSING;
    return 8 * numbers > room ? SHINGLEBAR_REFUSAL_OUTPUT_LENGTH : SHINGLEBAR_HELLO_READ_WRITTEN | (uint64_t)(8 * numbers) << 8;
}

/* The area has the numbers of each type, their count in front. */
static void check_contents(uint64_t word, const uint8_t *payload, size_t length, const uint8_t *area)
{
    struct shinglebar_contents contents = shinglebar_contents_of(area, shinglebar_hello_length(word));
    for (size_t at = 0; at < 4; at++) {
        struct walk walk = {TYPES[at], {0, 0}, &contents, word};
        uint64_t count = shinglebar_contents_next(&contents);
        walk_through(&walk, payload, length);
        check(count == walk.found.count, word, "another count is due");
    }
    check(contents.left == 0 && !contents.missing, word, "numbers are left over or missing");
}

int LLVMFuzzerInitialize(int *count, char ***arguments)
{
    (void)count;
    (void)arguments;
    return 0;
}

int LLVMFuzzerTestOneInput(const uint8_t *bytes, size_t length)
{
    static uint8_t area[ROOM_MAX + 1];
    size_t room = length < 2 ? 0 : (size_t)bytes[0] << 8 | bytes[1];
    const uint8_t *payload = length < 2 ? bytes : bytes + 2;
    size_t payload_length = length < 2 ? 0 : length - 2, at;
    memset(area, 0x5A, sizeof area);
    uint64_t word = shinglebar_hello_read_any(payload, payload_length, area, room);
    check(word == due_word(payload, payload_length, room), word, "another word is due");
    for (at = shinglebar_is_refusal(word) ? 0 : shinglebar_hello_length(word); at < sizeof area; at++)
        check(area[at] == 0x5A, word, "the area is changed behind what is written");
    if (!shinglebar_is_refusal(word))
        check_contents(word, payload, payload_length, area);
    return 0;
}
