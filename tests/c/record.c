/*
 * The header's pack and unpack of a record beside the library, on every boundary of every field: what a
 * record holds is told by what lookup, ageing, the lowest spoilt slot and learning do with it. Then every
 * single bit. Compiled as C and as C++.
 */
#include <string.h>

#include "shinglebar.h"

#include "expect.h"

#define LENGTH SHINGLEBAR_RECORD_LENGTH
#define COUNT(list) (sizeof(list) / sizeof(list)[0])
#define PORT ((uint64_t)0x0200000000A1)
#define INNER ((uint64_t)0x0200000000B1)

/* Writes bits of a record one by one, the first on the wire first: another way than the header's. */
static void put_bits(uint8_t *slot, int from, int width, uint64_t value)
{
    int bit;
    for (bit = 0; bit < width; bit++)
        if (value >> (width - 1 - bit) & 1)
            slot[(from + bit) / 8] |= (uint8_t)(0x80 >> (from + bit) % 8);
}

static void put_record(uint8_t *slot, const struct shinglebar_record *record)
{
    memset(slot, 0, LENGTH);
    put_bits(slot, 0, 2, record->state);
    put_bits(slot, 2, 1, record->label_kind);
    put_bits(slot, 3, 24, record->label);
    put_bits(slot, 27, 48, record->mac);
    put_bits(slot, 75, 16, record->nickname);
    put_bits(slot, 91, 8, record->confidence);
    put_bits(slot, 99, 13, record->seconds);
    put_bits(slot, 112, 1, record->multihomed);
}

/* What the library says that a slot is: a record that is not spoilt is free if it is found by nothing,
 * learned if ageing by the most frees it. */
static unsigned state_by_library(const uint8_t *slot, const struct shinglebar_record *record)
{
    uint8_t aged[LENGTH], zeros[LENGTH] = {0};
    if (shinglebar_kind(shinglebar_spoilt(slot, LENGTH)) == SHINGLEBAR_SPOILT_SLOT)
        return SHINGLEBAR_RECORD_SPOILT;
    if (shinglebar_kind(shinglebar_lookup(record->label_kind, record->label, record->mac, slot, LENGTH))
        != SHINGLEBAR_LOOKUP_FOUND)
        return SHINGLEBAR_RECORD_FREE;
    memcpy(aged, slot, LENGTH);
    expect("age", shinglebar_age(65535, aged, LENGTH), SHINGLEBAR_AGE_DONE);
    return memcmp(aged, zeros, LENGTH) == 0 ? SHINGLEBAR_RECORD_LEARNED : SHINGLEBAR_RECORD_CONFIGURED;
}

static void put_number(uint8_t *at, int bytes, uint64_t value)
{
    while (bytes-- > 0) {
        at[bytes] = (uint8_t)(value & 0xFF);
        value >>= 8;
    }
}

/* Reads a General frame whose source, label and ingress nickname are the record's, at a port with this
 * confidence and these seconds. */
static uint64_t learn(const struct shinglebar_record *record, unsigned confidence, unsigned seconds, uint8_t *slot)
{
    unsigned own = record->nickname == 1 ? 2 : 1;
    uint8_t frame[48], out[48];
    size_t at = 32;
    put_number(frame, 6, PORT);
    put_number(frame + 6, 6, INNER);
    put_number(frame + 12, 2, 0x22F3);
    put_number(frame + 14, 2, 0x0005);
    put_number(frame + 16, 2, own);
    put_number(frame + 18, 2, record->nickname);
    put_number(frame + 20, 6, (uint64_t)0x02000000000D);
    put_number(frame + 26, 6, record->mac);
    if (record->label_kind == SHINGLEBAR_LABEL_FINE_GRAINED) {
        put_number(frame + at, 2, 0x893B);
        put_number(frame + at + 2, 2, record->label >> 12);
        put_number(frame + at + 4, 2, 0x893B);
        put_number(frame + at + 6, 2, record->label & 0xFFF);
        at += 8;
    } else {
        put_number(frame + at, 2, 0x8100);
        put_number(frame + at + 2, 2, record->label);
        at += 4;
    }
    put_number(frame + at, 2, 0x0800);
    return shinglebar_receive(PORT, INNER, own, 0, confidence, seconds, frame, at + 2, slot, LENGTH, out,
                              sizeof out);
}

static unsigned learned_as(const struct shinglebar_record *record, unsigned confidence, const uint8_t *slot)
{
    uint8_t copy[LENGTH];
    uint64_t result;
    memcpy(copy, slot, LENGTH);
    result = learn(record, confidence, 0, copy);
    expect("delivered", shinglebar_kind(result), SHINGLEBAR_RECEIVE_DELIVERED);
    return shinglebar_learning(result);
}

/* A good record: the library finds label, MAC and nickname, tells the confidence by what it learns over,
 * and the seconds by what ageing leaves. */
static void good_record(const struct shinglebar_record *record, const uint8_t *slot)
{
    uint64_t found = shinglebar_lookup(record->label_kind, record->label, record->mac, slot, LENGTH);
    int is_learned = record->state == SHINGLEBAR_RECORD_LEARNED;
    uint8_t copy[LENGTH];
    expect("found", shinglebar_kind(found), SHINGLEBAR_LOOKUP_FOUND);
    expect("nickname", shinglebar_nickname(found), record->nickname);
    expect("same confidence", learned_as(record, record->confidence, slot),
           is_learned ? SHINGLEBAR_LEARNING_REFRESHED : SHINGLEBAR_LEARNING_KEPT);
    if (record->confidence > 0)
        expect("lower confidence", learned_as(record, record->confidence - 1, slot), SHINGLEBAR_LEARNING_KEPT);
    if (is_learned && record->seconds > 0) {
        struct shinglebar_record aged;
        memcpy(copy, slot, LENGTH);
        expect("age", shinglebar_age((uint16_t)(record->seconds - 1), copy, LENGTH), SHINGLEBAR_AGE_DONE);
        aged = shinglebar_unpack_record(copy);
        expect("a second left", aged.seconds, 1);
        expect("nickname after ageing", aged.nickname, record->nickname);
        expect("confidence after ageing", aged.confidence, record->confidence);
        expect("mark after ageing", aged.multihomed, record->multihomed);
    }
    if (is_learned && record->seconds >= 10 && !record->multihomed) {
        memset(copy, 0, LENGTH);
        expect("learned", shinglebar_learning(learn(record, record->confidence, record->seconds, copy)),
               SHINGLEBAR_LEARNING_LEARNED);
        expect("packed as the library packs", (uint64_t)memcmp(copy, slot, LENGTH), 0);
    }
}

/* The record with these bits: unpacked, judged and packed again. */
static void one_record(const struct shinglebar_record *bits)
{
    struct shinglebar_record record;
    uint8_t slot[LENGTH], packed[LENGTH];
    size_t at;
    put_record(slot, bits);
    record = shinglebar_unpack_record(slot);
    expect("state", record.state, state_by_library(slot, bits));
    expect("label kind", record.label_kind, bits->label_kind);
    expect("label", record.label, bits->label);
    expect("MAC", record.mac, bits->mac);
    expect("nickname", record.nickname, bits->nickname);
    expect("confidence", record.confidence, bits->confidence);
    expect("seconds", record.seconds, bits->seconds);
    expect("multihomed", record.multihomed, bits->multihomed);

    memset(packed, 0x5A, LENGTH);
    if (record.state == SHINGLEBAR_RECORD_SPOILT) {
        expect("a spoilt record is not packed", (uint64_t)shinglebar_pack_record(&record, packed), 0);
        if (bits->state != SHINGLEBAR_RECORD_FREE)
            expect("nor what would be spoilt", (uint64_t)shinglebar_pack_record(bits, packed), 0);
        for (at = 0; at < LENGTH; at++)
            expect("nothing is written", packed[at], 0x5A);
        return;
    }
    expect("packed", (uint64_t)shinglebar_pack_record(&record, packed), 1);
    expect("packed as it was", (uint64_t)memcmp(packed, slot, LENGTH), 0);
    if (record.state != SHINGLEBAR_RECORD_FREE)
        good_record(&record, slot);
}

static void every_boundary(void)
{
    static const uint32_t LABELS[] = {0, 1, 2, 0xFFE, 0xFFF, 0x1000, 0xFFFF, 0x10000, 0x800000, 0xFFFFFE, 0xFFFFFF};
    static const uint64_t MACS[] = {0, 1, (uint64_t)0x7FF, (uint64_t)0x800, (uint64_t)0x00FFFFFFFFFF,
                                    (uint64_t)0x010000000000, (uint64_t)0x020000000001, (uint64_t)0x0180C2000040,
                                    (uint64_t)0x800000000000, (uint64_t)0xFEFFFFFFFFFF, (uint64_t)0xFFFFFFFFFFFF};
    static const unsigned NICKNAMES[] = {0, 1, 2, 0x1234, 0xFFBF, 0xFFC0, 0xFFFF};
    static const unsigned CONFIDENCES[] = {0, 1, 0x80, 254, 255};
    static const unsigned SECONDS[] = {0, 1, 10, 300, 0x1000, 8190, 8191};
    struct shinglebar_record record;
    size_t l, m, n, c, s, h;
    for (record.state = 0; record.state < 4; record.state++)
        for (record.label_kind = 0; record.label_kind < 2; record.label_kind++)
            for (l = 0; l < COUNT(LABELS); l++)
                for (m = 0; m < COUNT(MACS); m++)
                    for (n = 0; n < COUNT(NICKNAMES); n++)
                        for (c = 0; c < COUNT(CONFIDENCES); c++)
                            for (s = 0; s < COUNT(SECONDS); s++)
                                for (h = 0; h < 2; h++) {
                                    record.label = LABELS[l];
                                    record.mac = MACS[m];
                                    record.nickname = NICKNAMES[n];
                                    record.confidence = CONFIDENCES[c];
                                    record.seconds = SECONDS[s];
                                    record.multihomed = (unsigned)h;
                                    one_record(&record);
                                }
}

/* A good record, and the free one, with one bit the other way. */
static void every_bit(void)
{
    const uint8_t good[LENGTH] = {0x40, 0x00, 0x01, 0x40, 0x40, 0x00, 0x00,
                                  0x00, 0x00, 0x22, 0x46, 0x82, 0x81, 0x2C};
    struct shinglebar_record record = shinglebar_unpack_record(good);
    int bit;
    expect("learned", record.state, SHINGLEBAR_RECORD_LEARNED);
    expect("VLAN", record.label_kind, SHINGLEBAR_LABEL_VLAN);
    expect("10", record.label, 10);
    expect("02-00-00-00-00-01", record.mac, (uint64_t)0x020000000001);
    expect("1234", record.nickname, 0x1234);
    expect("confidence 20", record.confidence, 20);
    expect("300 seconds", record.seconds, 300);
    for (bit = 0; bit < 8 * LENGTH; bit++) {
        uint8_t slot[LENGTH], packed[LENGTH];
        int from;
        for (from = 0; from < 2; from++) {
            memset(slot, 0, LENGTH);
            if (from == 1)
                memcpy(slot, good, LENGTH);
            slot[bit / 8] ^= (uint8_t)(0x80 >> bit % 8);
            record = shinglebar_unpack_record(slot);
            expect("state", record.state, state_by_library(slot, &record));
            expect("the last byte", (uint64_t)(record.state == SHINGLEBAR_RECORD_SPOILT || (slot[LENGTH - 1] & 0x7F) == 0), 1);
            expect("packed", (uint64_t)shinglebar_pack_record(&record, packed),
                   record.state != SHINGLEBAR_RECORD_SPOILT);
            if (record.state != SHINGLEBAR_RECORD_SPOILT)
                expect("packed as it was", (uint64_t)memcmp(packed, slot, LENGTH), 0);
        }
    }
}

/* Numbers that do not fit their fields are not packed; a free record is zeros whatever else it says. */
static void out_of_range(void)
{
    const uint8_t good[LENGTH] = {0x80, 0x00, 0x01, 0x40, 0x40, 0x00, 0x00,
                                  0x00, 0x00, 0x22, 0x46, 0x82, 0x81, 0x2C};
    const struct shinglebar_record configured = shinglebar_unpack_record(good);
    struct shinglebar_record wrong[10];
    uint8_t slot[LENGTH];
    size_t i, at;
    expect("configured", configured.state, SHINGLEBAR_RECORD_CONFIGURED);
    for (i = 0; i < COUNT(wrong); i++)
        wrong[i] = configured;
    wrong[0].state = 3;
    wrong[1].state = 4;
    wrong[2].label_kind = 2;
    wrong[3].label_kind = SHINGLEBAR_LABEL_FINE_GRAINED;
    wrong[3].label = 0x1000000;
    wrong[4].mac = (uint64_t)1 << 48;
    wrong[5].nickname = 0x11234;
    wrong[6].confidence = 256;
    wrong[7].seconds = 8192;
    wrong[8].label = 0x100000A;
    wrong[9].multihomed = 2;
    memset(slot, 0x5A, LENGTH);
    for (i = 0; i < COUNT(wrong); i++)
        expect("out of range", (uint64_t)shinglebar_pack_record(&wrong[i], slot), 0);
    for (at = 0; at < LENGTH; at++)
        expect("nothing is written", slot[at], 0x5A);
    wrong[0].state = SHINGLEBAR_RECORD_FREE;
    expect("free", (uint64_t)shinglebar_pack_record(&wrong[0], slot), 1);
    for (at = 0; at < LENGTH; at++)
        expect("zeros", slot[at], 0);
}

int main(void)
{
    every_boundary();
    every_bit();
    out_of_range();
    return failures == 0 ? 0 : 1;
}
