/* The watch of a port, in a file that `live` writes and `send` reads: the seconds left and the reading at which that was so. */
#ifndef WATCH_H
#define WATCH_H

#include <stddef.h>

#include "shinglebar.h"

struct watch {
    const char *name;
    int file;
    struct shinglebar_watch now;
};

/* The clock of every watch: seconds since the machine started, those of sleep too, in 32 bits. */
uint32_t watch_clock(void);

/* A fresh watch where the name is NULL; else the file's. `live` makes the file where it is missing, and takes off the time passed.
 * 0, or 1 and said. */
int watch_open(struct watch *watch, const char *name, int is_live);

/* Reads the file again, where there is one. 0, or 1 and said. */
int watch_read(struct watch *watch);

/* Reports what a frame says of the link, and writes the file. The kind of event if it began a stop, -1 if not, -2 if the file fails,
 * which is said. */
int watch_see(struct watch *watch, const uint8_t *bytes, size_t length);

void watch_close(struct watch *watch);

#endif
