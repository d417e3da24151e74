/* A flush that is carried out in portions, one after each frame. */
#ifndef PORTION_H
#define PORTION_H

#include "options.h"
#include "shinglebar.h"

/* The message as it came, and where its flush stands. */
struct portion {
    int is_open;
    unsigned ingress;
    uint8_t payload[SHINGLEBAR_FRAME_LENGTH_MAX];
    size_t length;
    uint64_t next;
    unsigned long cleared, calls;
};

/* Opens a flush if the frame brings one that the port carries out: 1, else 0. The library is asked with a table of one free slot; the
 * payload is found by document 01's layout. */
int portion_open(struct portion *portion, const struct options *options, const uint8_t *frame, size_t length);

/* Carries out a portion of an open flush, and returns the library's answer. It is closed where it is done. */
uint64_t portion_step(struct portion *portion, const struct options *options, struct table *table);

#endif
