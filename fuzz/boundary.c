/*
 * A fuzz target over the C boundary, for libFuzzer. fuzz/README.md says how to run it.
 *
 * An input is a call (input.h).
 *
 * Every area is placed against memory that cannot be accessed, and what a call may only read is lent to
 * it in memory that cannot be written. After the call:
 *
 * - the word is one that the call can give, with no bit beside those of its values;
 * - a refusal, onward, another channel and "the frame itself" have changed no byte of any area;
 * - an output or working area has kept its bytes behind what was written;
 * - a fine-grained frame that a map delivers has the tag of its pair; ingress has made 24 bytes more;
 * - delivery has changed at most one record, but for learned ones that it has freed where it refreshed another; a
 *   flush has freed as many learned records as it says, and changed no other; ageing has changed none but
 *   learned records;
 * - widening has written each record of the older table and a zero byte; a flush that is written is accepted;
 * - a free slot that is told is free, and has none below it.
 */
#define _GNU_SOURCE
#include <stdio.h>
#include <stdlib.h>
#include <string.h>
#include <sys/mman.h>
#include <unistd.h>

#include "input.h"
#include "shinglebar.h"

static const char *const names[CALLS] = {"send",    "receive", "flush",        "age",     "lookup", "spoilt", "compact",
                                         "expand",  "receive_port", "ingress", "widen",   "write",  "free_slot"};

/* What a call can give: its refusals, a bit for each, and its kinds with the bits of their values. */
#define REFUSAL(name) (1u << SHINGLEBAR_REFUSAL_##name)
#define TABLE_REFUSALS REFUSAL(TABLE_LENGTH)
#define FRAME_REFUSALS                                                                             \
    (REFUSAL(SETTINGS) | REFUSAL(FRAME_LENGTH) | REFUSAL(NOT_TRILL) | REFUSAL(NOT_FOR_THIS_PORT) | \
     REFUSAL(CUT) | REFUSAL(VERSION) | REFUSAL(LABEL) | REFUSAL(OUTPUT_LENGTH))
#define COMPACT_REFUSALS (FRAME_REFUSALS | REFUSAL(MULTICAST) | REFUSAL(NOT_COMPACTABLE))
#define RECEIVE_REFUSALS                                                                           \
    (TABLE_REFUSALS | FRAME_REFUSALS | REFUSAL(HOP_COUNT) | REFUSAL(NICKNAME) |                    \
     REFUSAL(GROUP_SOURCE) | REFUSAL(MULTICAST) | REFUSAL(RESERVED_DESTINATION) |                  \
     REFUSAL(CHANNEL) | REFUSAL(PAYLOAD))
#define MAP_REFUSALS (REFUSAL(MAP) | REFUSAL(NO_PAIR))
#define INGRESS_REFUSALS                                                                           \
    (MAP_REFUSALS | REFUSAL(SETTINGS) | REFUSAL(FRAME_LENGTH) | REFUSAL(CUT) | REFUSAL(LABEL) |    \
     REFUSAL(GROUP_SOURCE) | REFUSAL(HOP_COUNT) | REFUSAL(NICKNAME) | REFUSAL(MULTICAST) |         \
     REFUSAL(OUTPUT_LENGTH))

#define ONE_VALUE 0xFFFF00u
#define DELIVERED_VALUES 0xFFFFFF0103FFFF00u
#define UNPACKED_VALUE 0xFFFF00000000u

struct kind {
    unsigned number;
    uint64_t values;
};

static const struct answers {
    uint32_t refusals;
    struct kind kinds[4];
} answers[CALLS] = {
    [SEND] = {COMPACT_REFUSALS,
              {{SHINGLEBAR_SEND_COMPACTED, ONE_VALUE}, {SHINGLEBAR_SEND_ITSELF, 0}}},
    [RECEIVE] = {RECEIVE_REFUSALS,
                 {{SHINGLEBAR_RECEIVE_ONWARD, 0},
                  {SHINGLEBAR_RECEIVE_DELIVERED, DELIVERED_VALUES},
                  {SHINGLEBAR_RECEIVE_OTHER_CHANNEL, 0},
                  {SHINGLEBAR_RECEIVE_FLUSHED, ONE_VALUE}}},
    [RECEIVE_PORT] = {RECEIVE_REFUSALS | MAP_REFUSALS,
                      {{SHINGLEBAR_RECEIVE_ONWARD, 0},
                       {SHINGLEBAR_RECEIVE_DELIVERED, DELIVERED_VALUES},
                       {SHINGLEBAR_RECEIVE_OTHER_CHANNEL, 0},
                       {SHINGLEBAR_RECEIVE_FLUSHED, ONE_VALUE}}},
    [INGRESS] = {INGRESS_REFUSALS, {{SHINGLEBAR_INGRESS_WRITTEN, ONE_VALUE}}},
    [WIDEN] = {TABLE_REFUSALS | REFUSAL(OUTPUT_LENGTH), {{SHINGLEBAR_WIDEN_WRITTEN, ONE_VALUE}}},
    [WRITE] = {REFUSAL(LISTS) | REFUSAL(OUTPUT_LENGTH), {{SHINGLEBAR_WRITE_FLUSH_WRITTEN, ONE_VALUE}}},
    [FREE_SLOT] = {TABLE_REFUSALS,
                   {{SHINGLEBAR_FREE_SLOT_SLOT, ONE_VALUE | UNPACKED_VALUE},
                    {SHINGLEBAR_FREE_SLOT_NONE, UNPACKED_VALUE}}},
    [FLUSH] = {TABLE_REFUSALS | REFUSAL(PAYLOAD), {{SHINGLEBAR_FLUSH_FLUSHED, ONE_VALUE}}},
    [AGE] = {TABLE_REFUSALS, {{SHINGLEBAR_AGE_DONE, 0}}},
    [LOOKUP] = {TABLE_REFUSALS, {{SHINGLEBAR_LOOKUP_FOUND, ONE_VALUE}, {SHINGLEBAR_LOOKUP_NONE, 0}}},
    [SPOILT] = {TABLE_REFUSALS, {{SHINGLEBAR_SPOILT_SLOT, ONE_VALUE}, {SHINGLEBAR_SPOILT_NONE, 0}}},
    [COMPACT] = {COMPACT_REFUSALS, {{SHINGLEBAR_COMPACT_WRITTEN, ONE_VALUE}}},
    [EXPAND] = {FRAME_REFUSALS | REFUSAL(GENERAL), {{SHINGLEBAR_EXPAND_WRITTEN, ONE_VALUE}}},
};

/* The archive has no coverage counters. These stand in for them: libFuzzer keeps an input that gives a
 * call an answer it has not given before, or a value of another order of magnitude. */
__attribute__((used, section("__libfuzzer_extra_counters"))) static volatile uint8_t
    reached[CALLS][1024];

/* The answers of all calls, by low byte. */
static unsigned long long tally[CALLS][256];

static void check(int holds, enum call call, uint64_t word, const char *what)
{
    if (!holds) {
        fprintf(stderr, "%s: %#llx: %s\n", names[call], (unsigned long long)word, what);
        abort();
    }
}

static void print_tally(void)
{
    for (unsigned call = 0; call < CALLS; call++) {
        fprintf(stderr, "%-12s", names[call]);
        for (unsigned low = 0; low < 256; low++)
            if (tally[call][low] != 0)
                fprintf(stderr, " %u:%llu", low, tally[call][low]);
        fprintf(stderr, "\n");
    }
}

/* Memory of ROOM bytes between walls that cannot be accessed, seen twice: one view can be written. */
#define ROOM ((size_t)1 << 17)
#define WALL ((size_t)1 << 20)

struct region {
    uint8_t *write;
    const uint8_t *read;
    /* what the area held before the call */
    uint8_t before[ROOM];
};

static struct region maps, frames, tables, outs;
/* The lists of VLAN and of fine-grained blocks; nicknames lie where a table does, MAC blocks where a frame does. */
static struct region vlan_lists, fine_lists;
static uint8_t pattern[1 << 16];

static void must(int holds, const char *what)
{
    if (!holds) {
        perror(what);
        exit(1);
    }
}

static uint8_t *view(int file, int protection)
{
    uint8_t *walls =
        mmap(NULL, WALL + ROOM + WALL, PROT_NONE, MAP_PRIVATE | MAP_ANONYMOUS, -1, 0);
    must(walls != MAP_FAILED, "mmap");
    void *room = mmap(walls + WALL, ROOM, protection, MAP_SHARED | MAP_FIXED, file, 0);
    must(room != MAP_FAILED, "mmap");
    return room;
}

static void make_region(struct region *region)
{
    int file = memfd_create("shinglebar", 0);
    must(file >= 0 && ftruncate(file, (off_t)ROOM) == 0, "memfd_create");
    region->write = view(file, PROT_READ | PROT_WRITE);
    region->read = view(file, PROT_READ);
    close(file);
}

int LLVMFuzzerInitialize(int *count, char ***arguments);
int LLVMFuzzerTestOneInput(const uint8_t *bytes, size_t length);

int LLVMFuzzerInitialize(int *count, char ***arguments)
{
    (void)count;
    (void)arguments;
    make_region(&maps);
    make_region(&frames);
    make_region(&tables);
    make_region(&outs);
    make_region(&vlan_lists);
    make_region(&fine_lists);
    for (size_t at = 0; at < sizeof pattern; at++)
        pattern[at] = (uint8_t)(at * 167 + 13);
    atexit(print_tally);
    return 0;
}

/* An area at one end of its region. */
struct area {
    uint8_t *write;
    const uint8_t *read;
    const uint8_t *before;
    size_t length;
};

static struct area lend(struct region *region, int side, const uint8_t *bytes, size_t length)
{
    size_t offset = side ? 0 : ROOM - length;
    struct area area = {region->write + offset, region->read + offset, region->before, length};
    if (length > 0) {
        memcpy(area.write, bytes, length);
        memcpy(region->before, bytes, length);
    }
    return area;
}

/* The bytes of the area from an offset on are as they were. */
static int kept(const struct area *area, size_t from)
{
    return from >= area->length ||
           memcmp(area->write + from, area->before + from, area->length - from) == 0;
}

struct input {
    const uint8_t *bytes;
    size_t left;
};

static uint64_t number(struct input *input, int width)
{
    uint64_t number = 0;
    while (width-- > 0) {
        number <<= 8;
        if (input->left > 0) {
            number |= *input->bytes++;
            input->left--;
        }
    }
    return number;
}

static struct area some(struct input *input, struct region *region, int side, size_t length)
{
    if (length > input->left)
        length = input->left;
    if (length > ROOM)
        length = ROOM;
    struct area area = lend(region, side, input->bytes, length);
    input->bytes += length;
    input->left -= length;
    return area;
}

/* The word is one of the call's, and is noted. */
static void check_word(enum call call, uint64_t word)
{
    unsigned low = (unsigned)(word & 0xFF);
    tally[call][low]++;
    reached[call][low] = 1;
    if (shinglebar_is_refusal(word)) {
        check(word <= SHINGLEBAR_REFUSAL_PORTION && (answers[call].refusals >> word & 1), call, word, "no refusal of it");
        return;
    }
    for (unsigned at = 0; at < 4; at++) {
        const struct kind *kind = &answers[call].kinds[at];
        if (kind->number == low) {
            check((word & ~kind->values) == low, call, word, "a stray bit");
            unsigned value = (unsigned)(word >> 8 & 0xFFFF), magnitude = 0;
            while (value >> magnitude != 0)
                magnitude++;
            /* the value's magnitude, learning and the label's kind */
            unsigned more = (unsigned)(word >> 24 & 3) | (unsigned)(word >> 32 & 1) << 2;
            reached[call][256 + ((low & 3) << 4 | magnitude)] = 1;
            reached[call][512 + ((low & 3) << 3 | more)] = 1;
            return;
        }
    }
    check(0, call, word, "no answer of it");
}

/* What a call that wrote `length` bytes to its area has left there. */
static void check_written(enum call call, uint64_t word, const struct area *out, size_t length)
{
    check(length >= 14 && length <= SHINGLEBAR_FRAME_LENGTH_MAX, call, word, "no frame's length");
    check(length <= out->length, call, word, "longer than the area");
    check(kept(out, length), call, word, "the area is changed behind what is written");
}

/* The changes of a table: records changed, and those of them that were learned and are free. */
static void count_changes(const struct area *table, unsigned *changed, unsigned *freed,
                          unsigned *not_learned)
{
    static const uint8_t empty[SHINGLEBAR_RECORD_LENGTH];
    *changed = *freed = *not_learned = 0;
    for (size_t at = 0; at + sizeof empty <= table->length; at += sizeof empty) {
        const uint8_t *before = table->before + at, *after = table->write + at;
        if (memcmp(before, after, sizeof empty) == 0)
            continue;
        int learned = before[0] >> 6 == 1;
        *changed += 1;
        *freed += learned && memcmp(after, empty, sizeof empty) == 0;
        *not_learned += !learned;
    }
}

static void check_flushed(enum call call, uint64_t word, const struct area *table)
{
    unsigned changed, freed, not_learned, count = shinglebar_count(word);
    count_changes(table, &changed, &freed, &not_learned);
    check(changed == count && freed == count, call, word, "another count of records is cleared");
}

static void check_receive(enum call call, uint64_t word, const struct area *table, const struct area *out)
{
    unsigned changed, freed, not_learned;
    switch (shinglebar_kind(word)) {
    case SHINGLEBAR_RECEIVE_DELIVERED:
        check_written(call, word, out, shinglebar_native_length(word));
        count_changes(table, &changed, &freed, &not_learned);
        check(changed <= 1 + freed, call, word, "more than one record is changed");
        check(freed == 0 || shinglebar_learning(word) == SHINGLEBAR_LEARNING_REFRESHED, call, word,
              "a record is freed though none was refreshed");
        check(changed == 0 || shinglebar_learning(word) <= SHINGLEBAR_LEARNING_REFRESHED, call,
              word, "a record is changed though nothing was learned");
        check(shinglebar_label_kind(word) == SHINGLEBAR_LABEL_FINE_GRAINED ||
                  (shinglebar_label(word) >= 1 && shinglebar_label(word) <= 0xFFE),
              call, word, "no VLAN");
        break;
    case SHINGLEBAR_RECEIVE_FLUSHED:
        check(kept(out, 0), call, word, "the output area is changed");
        check_flushed(call, word, table);
        break;
    default:
        check(kept(table, 0), call, word, "the table is changed");
        check(kept(out, 0), call, word, "the output area is changed");
    }
}

static void check_age(uint64_t word, const struct area *table)
{
    unsigned changed, freed, not_learned;
    if (shinglebar_is_refusal(word)) {
        check(kept(table, 0), AGE, word, "the table is changed");
        return;
    }
    count_changes(table, &changed, &freed, &not_learned);
    check(not_learned == 0, AGE, word, "a record is changed that was not learned");
}

static void check_conversion(enum call call, uint64_t word, const struct area *out)
{
    if (shinglebar_kind(word) == SHINGLEBAR_COMPACT_WRITTEN)
        check_written(call, word, out, shinglebar_written_length(word));
    else
        check(kept(out, 0), call, word, "the area is changed");
}

/* What widening has written: each record of the older table and a zero byte. */
static void check_widened(uint64_t word, const struct area *old, const struct area *out)
{
    size_t length = shinglebar_written_length(word), at;
    if (shinglebar_kind(word) != SHINGLEBAR_WIDEN_WRITTEN) {
        check(kept(out, 0), WIDEN, word, "the area is changed");
        return;
    }
    check(length == old->length / SHINGLEBAR_OLD_RECORD_LENGTH * SHINGLEBAR_RECORD_LENGTH, WIDEN, word, "another length");
    check(length <= out->length && kept(out, length), WIDEN, word, "the area is changed behind what is written");
    for (at = 0; at < length; at++) {
        size_t record = at / SHINGLEBAR_RECORD_LENGTH, byte = at % SHINGLEBAR_RECORD_LENGTH;
        uint8_t wanted = byte < SHINGLEBAR_OLD_RECORD_LENGTH ? old->read[record * SHINGLEBAR_OLD_RECORD_LENGTH + byte] : 0;
        check(out->write[at] == wanted, WIDEN, word, "a byte is none of the older table's");
    }
}

/* A slot that is told is the lowest free one; no record is changed. */
static void check_free_slot(uint64_t word, const struct area *table)
{
    static const uint8_t empty[SHINGLEBAR_RECORD_LENGTH];
    size_t slots = table->length / sizeof empty, slot = 0;
    check(kept(table, 0), FREE_SLOT, word, "the table is changed");
    if (shinglebar_is_refusal(word))
        return;
    while (slot < slots && memcmp(table->read + slot * sizeof empty, empty, sizeof empty) != 0)
        slot++;
    check((shinglebar_kind(word) == SHINGLEBAR_FREE_SLOT_SLOT) == (slot < slots), FREE_SLOT, word, "a slot missed or made up");
    check(slot == slots || shinglebar_slot(word) == slot, FREE_SLOT, word, "another slot");
    check(shinglebar_unpacked(word) <= slot + (slot < slots), FREE_SLOT, word, "more records unpacked than there are");
}

/* A frame delivered by a map has the tag of a VLAN of the map, behind the addresses. */
static void check_tag(uint64_t word, const struct area *map, const struct area *out)
{
    if (shinglebar_kind(word) != SHINGLEBAR_RECEIVE_DELIVERED || map->length == 0 ||
        shinglebar_label_kind(word) != SHINGLEBAR_LABEL_FINE_GRAINED)
        return;
    const uint8_t *tag = out->write + 12;
    check(tag[0] == 0x81 && tag[1] == 0 && (tag[2] & 0x10) == 0, RECEIVE_PORT, word, "no tag");
    uint8_t pair[SHINGLEBAR_PAIR_LENGTH];
    shinglebar_pack_pair((uint16_t)((tag[2] & 0xF) << 8 | tag[3]), shinglebar_label(word), pair);
    for (size_t at = 0; at + sizeof pair <= map->length; at += sizeof pair)
        if (memcmp(map->read + at, pair, sizeof pair) == 0)
            return;
    check(0, RECEIVE_PORT, word, "no pair of the map");
}

/* The numbers of an input, with the names of the header. */
struct numbers {
    uint64_t port, inner, outer_destination, outer_source, mac;
    uint32_t nickname, compact, confidence, seconds, multihomed, smart, tagged, tag, m, hop_count, egress, ingress, kind,
        label;
    uint16_t aged;
    size_t room;
};

static struct numbers read_numbers(enum call call, struct input *input)
{
    struct numbers it = {0};
    if (call == RECEIVE || call == COMPACT || call == EXPAND || call == SEND || has_map(call)) {
        it.port = number(input, 8);
        it.inner = number(input, 8);
        it.nickname = (uint32_t)number(input, 4);
        it.compact = (uint32_t)number(input, 4);
        it.confidence = (uint32_t)number(input, 4);
        it.seconds = (uint32_t)number(input, 4);
        if (call == RECEIVE_PORT) {
            it.multihomed = (uint32_t)number(input, 4);
            it.smart = (uint32_t)number(input, 4);
        } else if (call == INGRESS) {
            it.outer_destination = number(input, 8);
            it.outer_source = number(input, 8);
            it.m = (uint32_t)number(input, 4);
            it.hop_count = (uint32_t)number(input, 4);
            it.egress = (uint32_t)number(input, 4);
            it.ingress = (uint32_t)number(input, 4);
        } else if (call == EXPAND) {
            it.outer_source = number(input, 8);
            it.tagged = (uint32_t)number(input, 4);
            it.tag = (uint32_t)number(input, 4);
        }
        it.room = (size_t)number(input, 2);
    } else if (call == WIDEN) {
        it.room = (size_t)number(input, 2);
    } else if (call == FLUSH) {
        it.ingress = (uint32_t)number(input, 4);
    } else if (call == AGE) {
        it.aged = (uint16_t)number(input, 2);
    } else if (call == LOOKUP) {
        it.kind = (uint32_t)number(input, 4);
        it.label = (uint32_t)number(input, 4);
        it.mac = number(input, 8);
    }
    return it;
}

/* Numbers that are in their ranges stay as they are. */
static void bring_into_ranges(struct numbers *it)
{
    const uint64_t individual = 0xFEFFFFFFFFFFu;
    it->port &= individual;
    it->inner &= individual;
    it->outer_source &= individual;
    it->outer_destination &= 0xFFFFFFFFFFFFu;
    it->m &= 1;
    it->multihomed %= 3;
    it->smart &= 1;
    if (it->inner == it->port)
        it->inner ^= 1;
    if (it->nickname < 1 || it->nickname > 0xFFBF)
        it->nickname = it->nickname % 0xFFBF + 1;
    it->compact &= 1;
    it->confidence &= 0xFF;
    if (it->seconds != 0 && (it->seconds < 10 || it->seconds > 8191))
        it->seconds = it->seconds % 8182 + 10;
    it->tagged &= 1;
    if (it->tag < 1 || it->tag > 0xFFE)
        it->tag = it->tag % 0xFFE + 1;
}

/* Writing a flush: a refusal has changed nothing, and what is written is a payload that flush accepts. */
static int write_one(struct input *input, int side)
{
    size_t nicknames_length = (size_t)number(input, 2), vlans_length = (size_t)number(input, 2);
    size_t fine_length = (size_t)number(input, 2), room = (size_t)number(input, 2);
    struct area nicknames = some(input, &tables, side, nicknames_length);
    struct area vlans = some(input, &vlan_lists, side, vlans_length);
    struct area fine = some(input, &fine_lists, side, fine_length);
    struct area macs = some(input, &frames, side, input->left);
    struct area out = lend(&outs, side, pattern, room);
    uint64_t word = shinglebar_write_flush(nicknames.read, nicknames.length, vlans.read, vlans.length, fine.read,
                                           fine.length, macs.read, macs.length, out.write, out.length);
    check_word(WRITE, word);
    if (shinglebar_is_refusal(word)) {
        check(kept(&out, 0), WRITE, word, "the area is changed");
        return 0;
    }
    size_t written = shinglebar_written_length(word);
    uint8_t slot[SHINGLEBAR_RECORD_LENGTH] = {0};
    check(written <= out.length && written <= SHINGLEBAR_WRITTEN_LENGTH_MAX, WRITE, word, "too long");
    check(kept(&out, written), WRITE, word, "the area is changed behind what is written");
    check(shinglebar_flush(1, out.read, written, slot, sizeof slot) == SHINGLEBAR_FLUSH_FLUSHED, WRITE, word,
          "flush does not accept what is written");
    return 0;
}

int LLVMFuzzerTestOneInput(const uint8_t *bytes, size_t length)
{
    struct input input = {bytes, length};
    unsigned selector = (unsigned)number(&input, 1);
    enum call call = call_of(selector);
    int side = selector >> 3 & 1;
    if (call == WRITE)
        return write_one(&input, side);
    int as_they_are = selector >> 4 & 1;
    struct numbers it = read_numbers(call, &input);
    size_t map_length = has_map(call) ? (size_t)number(&input, 2) : 0;
    struct area map = some(&input, &maps, side, map_length);
    size_t table_length = has_table(call) ? (size_t)number(&input, 2) : 0;
    if (!as_they_are) {
        bring_into_ranges(&it);
        if (table_length > input.left)
            table_length = input.left;
        table_length -= table_length % SHINGLEBAR_RECORD_LENGTH;
    }
    struct area table = some(&input, &tables, side, table_length);
    struct area frame = some(&input, &frames, side, input.left);
    struct area out = lend(&outs, side, pattern, it.room);
    uint64_t word = 0;

    switch (call) {
    case RECEIVE:
        word = shinglebar_receive(it.port, it.inner, it.nickname, it.compact, it.confidence,
                                  it.seconds, frame.read, frame.length, table.write, table.length,
                                  out.write, out.length);
        break;
    case RECEIVE_PORT:
        word = shinglebar_receive_port(it.port, it.inner, it.nickname, it.compact, it.confidence,
                                       it.seconds, it.multihomed, it.smart, map.read, map.length,
                                       frame.read, frame.length, table.write, table.length,
                                       out.write, out.length);
        break;
    case INGRESS:
        word = shinglebar_ingress(it.port, it.inner, it.nickname, it.compact, it.confidence,
                                  it.seconds, map.read, map.length, it.outer_destination,
                                  it.outer_source, it.m, it.hop_count, it.egress, it.ingress,
                                  frame.read, frame.length, out.write, out.length);
        break;
    case WIDEN:
        word = shinglebar_widen(frame.read, frame.length, out.write, out.length);
        break;
    case FLUSH:
        word = shinglebar_flush(it.ingress, frame.read, frame.length, table.write, table.length);
        break;
    case AGE:
        word = shinglebar_age(it.aged, table.write, table.length);
        break;
    case LOOKUP:
        word = shinglebar_lookup(it.kind, it.label, it.mac, table.read, table.length);
        break;
    case SPOILT:
        word = shinglebar_spoilt(table.read, table.length);
        break;
    case FREE_SLOT:
        word = shinglebar_free_slot(table.read, table.length);
        break;
    case COMPACT:
        word = shinglebar_compact(it.port, it.inner, it.nickname, it.compact, it.confidence,
                                  it.seconds, frame.read, frame.length, out.write, out.length);
        break;
    case EXPAND:
        word = shinglebar_expand(it.port, it.inner, it.nickname, it.compact, it.confidence,
                                 it.seconds, it.outer_source, it.tagged, it.tag, frame.read,
                                 frame.length, out.write, out.length);
        break;
    default:
        word = shinglebar_send(it.port, it.inner, it.nickname, it.compact, it.confidence,
                               it.seconds, frame.read, frame.length, out.write, out.length);
    }

    check_word(call, word);
    check(kept(&frame, 0), call, word, "the frame or payload is changed");
    check(kept(&map, 0), call, word, "the map is changed");
    switch (call) {
    case RECEIVE:
        check_receive(call, word, &table, &out);
        break;
    case RECEIVE_PORT:
        check_receive(call, word, &table, &out);
        check_tag(word, &map, &out);
        break;
    case INGRESS:
        check_conversion(call, word, &out);
        if (shinglebar_kind(word) == SHINGLEBAR_INGRESS_WRITTEN)
            check(shinglebar_written_length(word) == frame.length + 24, call, word, "another length");
        break;
    case WIDEN:
        check_widened(word, &frame, &out);
        break;
    case FLUSH:
        if (shinglebar_is_refusal(word))
            check(kept(&table, 0), call, word, "the table is changed");
        else
            check_flushed(call, word, &table);
        break;
    case AGE:
        check_age(word, &table);
        break;
    case FREE_SLOT:
        check_free_slot(word, &table);
        break;
    case LOOKUP:
    case SPOILT:
        check(kept(&table, 0), call, word, "the table is changed");
        break;
    case SEND:
        if (word != SHINGLEBAR_REFUSAL_SETTINGS)
            check((word == SHINGLEBAR_REFUSAL_OUTPUT_LENGTH) == (out.length < SHINGLEBAR_COMPACT_LENGTH_MAX), call, word,
                  "16 does not tell whether the working area is short");
        check_conversion(call, word, &out);
        break;
    default:
        check_conversion(call, word, &out);
    }
    return 0;
}
