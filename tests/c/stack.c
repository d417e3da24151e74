/*
 * The stack that a call takes, measured: the call is made in a thread whose stack was filled with a
 * pattern, and took what lies between the frame that made it and the lowest byte that has changed. Fails
 * where a call took more than the header says; prints the most that each took. Compiled as C and as C++.
 *
 * Each call is made in a process of its own, and nothing here calls memset or memmove before it: what the
 * dynamic loader takes when the archive first calls them counts too.
 */
#define _XOPEN_SOURCE 700
#include <pthread.h>
#include <stdio.h>
#include <stdlib.h>
#include <sys/wait.h>
#include <unistd.h>

#include "shinglebar.h"

#define PATTERN 0xA5
#define PAGE 4096
#define STACK (2 * SHINGLEBAR_STACK_MAX)
/* Below the frame that paints, and not painted. */
#define OWN 512

#define PORT ((uint64_t)0x0200000000A1)
#define INNER ((uint64_t)0x0200000000B1)
#define SOURCE ((uint64_t)0x0200000000B2)
#define SETTINGS PORT, INNER, 0x0102, 1, 20, 0

/* More than a frame has room for, so that a flush meets areas of its own that are full. */
#define PAYLOAD_MAX 70000

static uint8_t table[SHINGLEBAR_TABLE_LENGTH_MAX];
static uint8_t out[SHINGLEBAR_FRAME_LENGTH_MAX];
static uint8_t frame[SHINGLEBAR_FRAME_LENGTH_MAX];
static uint8_t payload[PAYLOAD_MAX];
static uint8_t map[SHINGLEBAR_MAP_LENGTH_MAX];
static size_t frame_length;
static size_t payload_length;
static size_t map_length;

/* ---- what the calls are made on */

/* A number below n; every run has the same ones. */
static unsigned below(unsigned n)
{
    static uint32_t state = 1;
    state = state * 1664525u + 1013904223u;
    return (unsigned)(((uint64_t)state * n) >> 32);
}

/* Every slot learned, behind three nicknames. */
static void fill_table(void)
{
    size_t at;
    for (at = 0; at < sizeof table; at += SHINGLEBAR_RECORD_LENGTH) {
        struct shinglebar_record record;
        record.state = SHINGLEBAR_RECORD_LEARNED;
        record.label_kind = below(2);
        record.label = record.label_kind == SHINGLEBAR_LABEL_VLAN ? 1 + below(0xFFE) : below(0x1000000);
        record.mac = below(0x1000000);
        record.nickname = 0x1234 + below(3);
        record.confidence = 20;
        record.seconds = 300;
        record.multihomed = 0;
        if (!shinglebar_pack_record(&record, table + at))
            exit(2);
    }
}

/* A TLV with a value of random bytes; the blocks of types 3 and 8 are short, so that they stay apart. */
static size_t put_tlv(size_t at, unsigned type, size_t length)
{
    size_t half = type == 3 ? 3 : 6, i;
    payload[at++] = (uint8_t)type;
    payload[at++] = (uint8_t)length;
    for (i = 0; i < length; i++) {
        int is_end = (type == 3 || type == 8) && i % (2 * half) >= half;
        payload[at + i] = is_end ? payload[at + i - half] : (uint8_t)below(256);
    }
    return at + length;
}

/* A good payload of at most `room` bytes: nicknames, and TLVs of the types in a bit mask by turns, or
 * VLAN blocks where the mask is 0. */
static void make_payload(size_t room, unsigned nicknames, unsigned types)
{
    size_t at = 1, blocks;
    unsigned i, type = 0;
    payload[0] = (uint8_t)nicknames;
    for (i = 0; i < nicknames; i++) {
        payload[at++] = 0x12;
        payload[at++] = (uint8_t)(0x34 + i);
    }
    blocks = types != 0 || room < at + 5 ? 0 : (room - at - 1) / 4;
    payload[at++] = (uint8_t)(blocks < 255 ? blocks : 255);
    for (i = 0; i < 4u * (blocks < 255 ? blocks : 255); i++)
        payload[at++] = (uint8_t)below(256);
    while (types != 0 && at + 2 + 12 <= room) {
        /* 12 is a length that every type but 6 allows, and so are its multiples. */
        size_t left = (room - at - 2) / 12 * 12;
        do
            type = type % 8 + 1;
        while (!(types >> type & 1));
        at = put_tlv(at, type, type == 6 ? 0 : left < 240 ? left : 240);
    }
    payload_length = at;
}

static size_t put(size_t at, const char *digits)
{
    unsigned value;
    for (; *digits != '\0'; digits += 2) {
        if (sscanf(digits, "%2x", &value) != 1)
            exit(2);
        frame[at++] = (uint8_t)value;
    }
    return at;
}

/* A General frame that brings the payload, as much of it as has room. */
static void make_flush_frame(void)
{
    size_t at = put(0, "0180C2000040" "0200000000B2" "22F3" "080501031234" "0180C2000042" "020000000002"
                       "81000001" "894600090000");
    size_t i;
    for (i = 0; i < payload_length && at < sizeof frame; i++)
        frame[at++] = payload[i];
    frame_length = at;
}

/* A frame with all options and a fine-grained label, of the most bytes that the call allows. */
static void make_frame(int compact)
{
    if (compact) {
        put(0, "02000000000D" "020000000001" "893B0123893B0456" "22F3" "07C501021234");
        frame_length = SHINGLEBAR_FRAME_LENGTH_MAX - 16;
    } else {
        put(put(0, "0200000000A1" "0200000000B2" "22F3" "07C501021234") + 31 * 4,
            "02000000000D" "020000000001" "893B0123893B0456");
        frame_length = SHINGLEBAR_FRAME_LENGTH_MAX;
    }
}

/* A good map of so many pairs, the label of make_frame in the last. */
static void make_map(unsigned pairs, unsigned (*label)(unsigned))
{
    unsigned i;
    for (i = 1; i <= pairs; i++)
        shinglebar_pack_pair((uint16_t)i, i == pairs ? 0x123456 : label(i), map + (i - 1) * SHINGLEBAR_PAIR_LENGTH);
    map_length = (size_t)pairs * SHINGLEBAR_PAIR_LENGTH;
}

/* Labels far apart, and labels that have their low and their high bits in common with many others. */
static unsigned apart(unsigned i)
{
    return i * 2731;
}

static unsigned alike(unsigned i)
{
    return (i & 63) << 17 | i >> 6;
}

/* A native frame of the most bytes that ingress allows, tagged with VLAN 1. */
static void make_native(void)
{
    put(0, "02000000000D" "020000000001" "81006001");
    frame_length = SHINGLEBAR_FRAME_LENGTH_MAX - 24;
}

/* ---- the calls */

static uint64_t call_receive(void)
{
    return shinglebar_receive(SETTINGS, frame, frame_length, table, sizeof table, out, sizeof out);
}

static uint64_t call_receive_port(void)
{
    return shinglebar_receive_port(SETTINGS, 0, 0, map, map_length, frame, frame_length, table, sizeof table, out,
                                   sizeof out);
}

static uint64_t call_ingress(void)
{
    return shinglebar_ingress(SETTINGS, map, map_length, PORT, SOURCE, 0, 5, 0x0102, 0x1234, frame, frame_length, out,
                              sizeof out);
}

static uint64_t call_flush(void)
{
    return shinglebar_flush(0x1234, payload, payload_length, table, sizeof table);
}

static uint64_t call_vlan_only(void)
{
    return shinglebar_flush_vlan_only(0x1234, payload, payload_length, table, sizeof table);
}

static uint64_t call_portion(void)
{
    return shinglebar_flush_portion(0x1234, payload, payload_length, 0, sizeof table, table, sizeof table);
}

static uint64_t call_why(void)
{
    return shinglebar_why(0x1234, payload, payload_length, SHINGLEBAR_TABLE_LENGTH_MAX / SHINGLEBAR_RECORD_LENGTH - 1, table,
                          sizeof table);
}

static uint64_t call_compact(void)
{
    return shinglebar_compact(SETTINGS, frame, frame_length, out, sizeof out);
}

static uint64_t call_expand(void)
{
    return shinglebar_expand(SETTINGS, SOURCE, 1, 5, frame, frame_length, out, sizeof out);
}

static uint64_t call_send(void)
{
    return shinglebar_send(SETTINGS, frame, frame_length, out, sizeof out);
}

static uint64_t call_send_watched(void)
{
    static struct shinglebar_watch watch;
    return shinglebar_send_watched(SETTINGS, &watch, 1, frame, frame_length, out, sizeof out);
}

static uint64_t call_watch_event(void)
{
    static struct shinglebar_watch watch;
    return shinglebar_watch_event(&watch, 1, SHINGLEBAR_EVENT_BRIDGE_BPDU, 641);
}

static uint64_t call_lookup(void)
{
    return shinglebar_lookup(SHINGLEBAR_LABEL_VLAN, 10, (uint64_t)1 << 40, table, sizeof table);
}

static uint64_t call_report(void)
{
    static uint8_t text[SHINGLEBAR_REPORT_LENGTH_MAX];
    return shinglebar_report(table, sizeof table, text, sizeof text);
}

static uint8_t hello_contents[16 * PAYLOAD_MAX];
static size_t hello_contents_length;
static uint8_t hello_written[2 * PAYLOAD_MAX];

static uint64_t call_hello_read(void)
{
    return shinglebar_hello_read(payload, payload_length, hello_contents, sizeof hello_contents);
}

/* With what was read before. */
static uint64_t call_hello_write(void)
{
    return shinglebar_hello_write(hello_contents, hello_contents_length, hello_written, sizeof hello_written);
}

static uint64_t call_age(void)
{
    return shinglebar_age(299, table, sizeof table);
}

static uint64_t call_spoilt(void)
{
    return shinglebar_spoilt(table, sizeof table);
}

/* 255 of everything: the lists are one area of numbers that rise. */
static uint64_t call_write_flush(void)
{
    static uint8_t vlans[255 * 4], fine[255 * 8], macs[255 * 16];
    for (size_t at = 0; at < 255; at++) {
        vlans[4 * at + 1] = vlans[4 * at + 3] = (uint8_t)(1 + at % 255);
        fine[8 * at + 7] = macs[16 * at + 15] = 1;
    }
    return shinglebar_write_flush(vlans, 510, vlans, sizeof vlans, fine, sizeof fine, macs, sizeof macs, out, sizeof out);
}

/* ---- the measurement */

struct measured {
    uint64_t (*call)(void);
    uint8_t *stack;
    uint64_t result;
    size_t took;
};

/* Runs in the thread. What it takes of the stack itself, below its local, counts as the call's. */
static void *measure(void *given)
{
    struct measured *measured = (struct measured *)given;
    volatile uint8_t here = 0;
    size_t top = (size_t)((uintptr_t)&here - (uintptr_t)measured->stack);
    size_t at;
    for (at = 0; at < top - OWN; at++)
        measured->stack[at] = PATTERN;
    measured->result = measured->call();
    for (at = 0; measured->stack[at] == PATTERN; at++)
        ;
    measured->took = top - at;
    return NULL;
}

/* In a process of its own, which hands back what was measured by way of a pipe. */
static void measure_apart(struct measured *measured, int to)
{
    static uint8_t area[STACK + PAGE];
    pthread_attr_t attributes;
    pthread_t thread;
    measured->stack = area + (PAGE - (uintptr_t)area % PAGE) % PAGE;
    if (pthread_attr_init(&attributes) != 0 || pthread_attr_setstack(&attributes, measured->stack, STACK) != 0
        || pthread_create(&thread, &attributes, measure, measured) != 0 || pthread_join(thread, NULL) != 0)
        _exit(1);
    _exit(write(to, measured, sizeof *measured) == (ssize_t)sizeof *measured ? 0 : 1);
}

/* An answer that is no refusal. */
#define ANY 0

/* The stack that the call took; it must give an answer of this kind. */
static size_t taken(const char *name, uint64_t (*call)(void), unsigned kind)
{
    struct measured measured;
    int ends[2], status = 1;
    pid_t child;
    measured.call = call;
    if (pipe(ends) != 0 || (child = fork()) < 0)
        exit(2);
    if (child == 0)
        measure_apart(&measured, ends[1]);
    close(ends[1]);
    if (read(ends[0], &measured, sizeof measured) != (ssize_t)sizeof measured || waitpid(child, &status, 0) != child
        || status != 0) {
        printf("%s was not measured\n", name);
        exit(1);
    }
    close(ends[0]);
    if (kind == ANY ? shinglebar_is_refusal(measured.result) : shinglebar_kind(measured.result) != kind) {
        printf("%s answered %lx\n", name, (unsigned long)measured.result);
        exit(1);
    }
    return measured.took;
}

static int failures = 0;

static void within(const char *name, size_t took, size_t most)
{
    printf("%s: %lu bytes of stack\n", name, (unsigned long)took);
    if (took > most) {
        printf("%s may take %lu by the header\n", name, (unsigned long)most);
        failures++;
    }
}

/* Messages of every form, of lengths on both sides of those where the flush takes other areas. */
static void flushes(void)
{
    static const unsigned TYPES[] = {0,        1u << 1, 1u << 2,           1u << 3,           1u << 4, 1u << 5,
                                     1u << 6, 1u << 7, 1u << 7 | 1u << 6, 1u << 8 | 1u << 6, 0x1FE};
    static const size_t ROOMS[] = {40, 144, 160, 768, 800, 3000, 9170, 9290, 9320, PAYLOAD_MAX};
    static const unsigned NICKNAMES[] = {0, 1, 2, 255};
    size_t flush = 0, portion = 0, vlan_only = 0, why = 0, receive = 0, took, t, r, n;
    for (t = 0; t < sizeof TYPES / sizeof TYPES[0]; t++)
        for (r = 0; r < sizeof ROOMS / sizeof ROOMS[0]; r++)
            for (n = 0; n < sizeof NICKNAMES / sizeof NICKNAMES[0]; n++) {
                make_payload(ROOMS[r], NICKNAMES[n], TYPES[t]);
                took = taken("flush", call_flush, SHINGLEBAR_FLUSH_FLUSHED);
                flush = took > flush ? took : flush;
                took = taken("flush_portion", call_portion, SHINGLEBAR_FLUSH_PORTION_DONE);
                portion = took > portion ? took : portion;
                took = taken("flush_vlan_only", call_vlan_only, SHINGLEBAR_FLUSH_FLUSHED);
                vlan_only = took > vlan_only ? took : vlan_only;
                if (NICKNAMES[n] == 255) {
                    took = taken("why", call_why, ANY);
                    why = took > why ? took : why;
                }
                if (payload_length > sizeof frame - 46)
                    continue;
                make_flush_frame();
                took = taken("receive", call_receive, SHINGLEBAR_RECEIVE_FLUSHED);
                receive = took > receive ? took : receive;
            }
    within("flush", flush, SHINGLEBAR_STACK_MAX);
    within("flush_portion", portion, SHINGLEBAR_STACK_MAX);
    within("flush_vlan_only", vlan_only, SHINGLEBAR_STACK_MAX);
    within("why", why, SHINGLEBAR_STACK_MAX_WITHOUT_FLUSH);
    within("receive with a flush", receive, SHINGLEBAR_STACK_MAX);
}

static void others(void)
{
    size_t most = SHINGLEBAR_STACK_MAX_WITHOUT_FLUSH;
    make_frame(0);
    within("receive without a flush", taken("receive", call_receive, SHINGLEBAR_RECEIVE_DELIVERED), most);
    within("compact", taken("compact", call_compact, SHINGLEBAR_COMPACT_WRITTEN), most);
    within("send", taken("send", call_send, SHINGLEBAR_SEND_COMPACTED), most);
    within("send watched", taken("send watched", call_send_watched, SHINGLEBAR_SEND_COMPACTED), most);
    within("watch event", taken("watch event", call_watch_event, SHINGLEBAR_WATCH_LEFT), most);
    make_frame(1);
    within("receive without a flush, Compact", taken("receive", call_receive, SHINGLEBAR_RECEIVE_DELIVERED), most);
    within("expand", taken("expand", call_expand, SHINGLEBAR_EXPAND_WRITTEN), most);
    within("lookup", taken("lookup", call_lookup, SHINGLEBAR_LOOKUP_NONE), most);
    within("age", taken("age", call_age, SHINGLEBAR_AGE_DONE), most);
    within("spoilt", taken("spoilt", call_spoilt, SHINGLEBAR_SPOILT_NONE), most);
    within("write_flush", taken("write_flush", call_write_flush, SHINGLEBAR_WRITE_FLUSH_WRITTEN), most);
}

/* With three nicknames, and with as many as there are slots. */
static void reports(void)
{
    size_t at, few = taken("report", call_report, SHINGLEBAR_REPORT_WRITTEN), many;
    for (at = 0; at < sizeof table; at += SHINGLEBAR_RECORD_LENGTH) {
        struct shinglebar_record record = shinglebar_unpack_record(table + at);
        record.nickname = 1 + (unsigned)(at * 97 / SHINGLEBAR_RECORD_LENGTH) % 0xFFBF;
        if (!shinglebar_pack_record(&record, table + at))
            exit(2);
    }
    many = taken("report", call_report, SHINGLEBAR_REPORT_WRITTEN);
    within("report", few > many ? few : many, SHINGLEBAR_STACK_MAX);
}

/* A Smart-Hello of so many bytes with each kind in a TLV of its own, Smart-Parameters last. */
static void make_hello(size_t room)
{
    static const uint8_t PARAMETERS[] = {0xFB, 9, 0, 0, 1, 22, 4, 0, 30, 0, 0};
    static const uint8_t PIECES[] = {0xF2, 12, 0, 0, 0, 0, 0, 6, 5, 1, 2, 3, 4, 5, 0xF2, 11, 0, 0, 0, 0, 0, 8, 4, 0, 1, 2, 3,
                                     0xFB, 15, 0, 0, 1, 23, 10, 0x80, 0, 0, 1, 2, 3, 4, 5, 6, 7};
    size_t at = 0, i;
    while (at + sizeof PIECES + sizeof PARAMETERS <= room)
        for (i = 0; i < sizeof PIECES; i++)
            payload[at++] = PIECES[i];
    for (i = 0; i < sizeof PARAMETERS; i++)
        payload[at++] = PARAMETERS[i];
    payload_length = at;
}

static void hellos(void)
{
    static const size_t ROOMS[] = {11, 100, 300, 1000, 9000, PAYLOAD_MAX};
    size_t read = 0, written = 0, took, r;
    for (r = 0; r < sizeof ROOMS / sizeof ROOMS[0]; r++) {
        make_hello(ROOMS[r]);
        took = taken("hello_read", call_hello_read, SHINGLEBAR_HELLO_READ_WRITTEN);
        read = took > read ? took : read;
        hello_contents_length = shinglebar_hello_length(call_hello_read());
        took = taken("hello_write", call_hello_write, SHINGLEBAR_HELLO_WRITE_WRITTEN);
        written = took > written ? took : written;
    }
    within("hello_read", read, SHINGLEBAR_STACK_MAX_WITHOUT_FLUSH);
    within("hello_write", written, SHINGLEBAR_STACK_MAX_WITHOUT_FLUSH);
}

/* Reading without a flush and ingress, with maps of so many pairs. */
static void mapped(const unsigned *pairs, size_t count, unsigned (*label)(unsigned), size_t most)
{
    size_t receive = 0, ingress = 0, took, p;
    for (p = 0; p < count; p++) {
        make_map(pairs[p], label);
        make_frame(0);
        took = taken("receive_port", call_receive_port, SHINGLEBAR_RECEIVE_DELIVERED);
        receive = took > receive ? took : receive;
        make_native();
        took = taken("ingress", call_ingress, SHINGLEBAR_INGRESS_WRITTEN);
        ingress = took > ingress ? took : ingress;
    }
    within("receive_port without a flush", receive, most);
    within("ingress", ingress, most);
}

/* With maps of lengths on both sides of those where judging takes other areas. */
static void maps(void)
{
    static const unsigned SHORT[] = {1, 2, 8, 9, 16, 17, 32, 33, 50, 64, 65, 100, 128};
    static const unsigned LONG[] = {129, 256, 257, 1000, 2048, 4094};
    mapped(SHORT, sizeof SHORT / sizeof SHORT[0], apart, SHINGLEBAR_STACK_MAX_WITHOUT_FLUSH);
    mapped(LONG, sizeof LONG / sizeof LONG[0], apart, SHINGLEBAR_STACK_MAX);
    mapped(LONG, sizeof LONG / sizeof LONG[0], alike, SHINGLEBAR_STACK_MAX);
    make_payload(9170, 255, 0x1FE);
    make_flush_frame();
    within("receive_port with a flush", taken("receive_port", call_receive_port, SHINGLEBAR_RECEIVE_FLUSHED),
           SHINGLEBAR_STACK_MAX);
}

int main(void)
{
    fill_table();
    flushes();
    others();
    maps();
    reports();
    hellos();
    return failures == 0 ? 0 : 1;
}
