/* Capture files of Ethernet frames without FCS: classic pcap and pcapng to read, classic pcap to write. The name - is standard input or
 * output. */
#ifndef CAPTURE_H
#define CAPTURE_H

#include <stddef.h>
#include <stdint.h>
#include <stdio.h>

#include "whole.h"

/* The longest record that a capture may hold: tcpdump's own limit. Frames over 9,216 bytes are for the receiver to refuse. */
#define CAPTURE_FRAME_MAX 262144

/* How a classic capture's numbers are written; an output capture has the form of its input, with nanoseconds for pcapng. */
struct capture_form {
    int big_endian;
    int nanoseconds;
};

struct captured {
    uint32_t seconds;
    uint32_t fraction;
    /* of the fraction: 6 or 9 */
    int digits;
    /* 0 where the record has no time of its own, and keeps that of the one before */
    int timed;
    size_t length;
    uint8_t bytes[CAPTURE_FRAME_MAX];
};

/* What came of reading on. A cut capture ends inside a record: what came before it counts. CUT and BAD are said. */
enum capture_step { CAPTURE_FRAME, CAPTURE_END, CAPTURE_CUT, CAPTURE_BAD };

struct pcapng;

/* `number` counts the frames read, `at` is the byte at which the present record begins. */
struct capture_reader {
    const char *name;
    FILE *file;
    struct capture_form form;
    unsigned long number;
    long long size;
    long long at;
    long long taken;
    struct pcapng *pcapng;
};

/* Opens a capture and reads its header: 0, or says what is wrong and returns 1. */
int capture_open(struct capture_reader *reader, const char *name);

/* Reads the next frame and shows progress. */
enum capture_step capture_next(struct capture_reader *reader, struct captured *frame);

void capture_close(struct capture_reader *reader);

/* Begins an output capture, unless the name is NULL; and adds a frame to one that was begun. 0, or 1 and said. */
int capture_create(struct whole *out, const char *name, struct capture_form form);
int capture_add(struct whole *out, struct capture_form form, const struct captured *stamp, const uint8_t *bytes,
                size_t length);

/* For the readers of the two formats: a number as it is written; bytes that the record at hand needs, a record's first bytes, which
 * may be missing (END); and a fault of the record at hand, which is said. */
uint32_t capture_number(int big_endian, const uint8_t *at, int bytes);
enum capture_step capture_take(struct capture_reader *reader, void *area, size_t length, const char *what);
enum capture_step capture_begin(struct capture_reader *reader, void *area, size_t length, const char *what);
enum capture_step capture_fault(const struct capture_reader *reader, const char *what, unsigned long has,
                                unsigned long wants);

/* Whether the lengths of a record are those of a whole frame: FRAME, or BAD and said. */
enum capture_step capture_check(const struct capture_reader *reader, uint32_t held, uint32_t original);

#endif
