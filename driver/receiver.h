/* The receiver on a table, with a line for each frame: what `receive` and `live` share. */
#ifndef RECEIVER_H
#define RECEIVER_H

#include "capture.h"
#include "options.h"
#include "portion.h"
#include "shadow.h"
#include "store.h"

/* Every refusal is below: shinglebar_is_refusal. */
#define REFUSALS 64

struct receiver {
    const struct options *options;
    struct capture_form form;
    struct whole out;
    struct store store;
    struct shadow shadow;
    struct text line;
    struct portion portion;
    /* Only `live` can lose frames. */
    int is_live;
    unsigned long lost;
    unsigned long frames, learning[4], onward, other_channel, flushes, cleared, refused[REFUSALS];
};

/* Opens the table of the options, for a receiver that is all zero. 0, or 1 and said. */
int receiver_open(struct receiver *receiver, const struct options *options);

/* Lets seconds pass for the table, which is then aged to a second of the wall clock, and prints a line where records became free. */
void receiver_pass(struct receiver *receiver, uint64_t seconds, uint64_t second);

/* Lets the whole seconds pass since the table was last aged, never backwards; a table that came without that second ages from now on. */
void receiver_age(struct receiver *receiver, uint64_t second);

/* Passes a frame to the library, prints its line, and adds a delivered native frame to the output. 0, or 1 and said. */
int receiver_take(struct receiver *receiver, const struct captured *frame);

/* Carries out what is left of a flush in portions. */
void receiver_finish(struct receiver *receiver);

/* Brings out what has been printed, and a capture on standard output, for whoever waits for it. 0, or 1 and said. */
int receiver_flush(struct receiver *receiver);

/* Prints totals and table. */
void receiver_report(struct receiver *receiver);

/* Replaces the output capture and the table file. 0, or 1 and said. */
int receiver_keep(struct receiver *receiver);

/* Takes temporary files away, and lets go of the table file. */
void receiver_close(struct receiver *receiver);

#endif
