/* The command line. */
#ifndef OPTIONS_H
#define OPTIONS_H

#include <stdint.h>

#include "lists.h"
#include "shinglebar.h"
#include "table.h"

enum command {
    RECEIVE = 1,
    COMPACT = 2,
    EXPAND = 4,
    LOOKUP = 8,
    AGE = 16,
    CHECK = 32,
    LIVE = 64,
    SEND = 128,
    SET = 256,
    UNSET = 512,
    WIDEN = 1024,
    WRITE = 2048,
    INGRESS = 4096,
    WHY = 8192,
    REPORT = 16384,
    HELLO = 32768,
    HELLO_WRITE = 65536
};

/* The payload of a flush or a Smart-Hello, at most as long as a frame has room for. */
struct payload {
    size_t length;
    uint8_t bytes[SHINGLEBAR_FRAME_LENGTH_MAX];
};

/* An option that was not given is NULL or 0, but for Compact off, confidence 32, seconds 0, saving every
 * 30 seconds, a hop count of 63. */
struct options {
    enum command command;
    struct shinglebar_settings settings;
    struct shinglebar_encapsulation given;
    const char *capture;
    const char *table;
    const char *out;
    const char *map;
    const char *interface;
    uint32_t slots;
    uint32_t frames;
    uint32_t duration;
    uint64_t source;
    uint32_t tagged;
    uint32_t tag;
    uint32_t kind;
    uint32_t label;
    struct audience audience;
    uint32_t by;
    int quiet;
    int json;
    int no_ageing;
    int dry_run;
    uint32_t save;
    /* The slots of a portion; 0 flushes whole. */
    uint32_t portion;
    const char *payload;
    uint32_t ingress;
    struct lists lists;
    const char *watch;
    /* The slot that is asked for, and whether there is one; whether a label is. */
    uint32_t slot;
    int has_slot;
    int has_label;
    /* A payload that was given as digits, and a file of lines that are to become one. */
    struct payload digits;
    const char *text;
};

/* A number, decimal or hexadecimal after 0x, at most 2^48: 1, or 0 if the text is none. */
int read_number(const char *text, uint64_t *value);

/* The same, hexadecimal also without 0x. */
int read_hex(const char *text, uint64_t *value);

/* An address of twelve digits, with the same mark between each two or none: 1, or 0 if the text is none. */
int read_address(const char *text, uint64_t *value);

/* Reads the command line: -1 if the command is to be carried out, else the exit status (help, or bad usage, which is said). */
int options_read(int count, char **words, struct options *options);

#endif
