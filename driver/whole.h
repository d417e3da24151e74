/* A file that is replaced whole or not at all: written under another name in the same folder, brought to the disk, renamed. It keeps
 * owner, group and mode of the one it replaces. The name - is standard output, which is written as it comes. */
#ifndef WHOLE_H
#define WHOLE_H

#include <stdio.h>

/* What the other name ends with. One that a killed process has left is taken away by the next. */
#define WHOLE_TEMPORARY ".shinglebar-new"

struct whole {
    const char *name;
    char *target;
    char *temporary;
    FILE *file;
};

#define WHOLE_NONE {NULL, NULL, NULL, NULL}

/* Each returns 0, or says what is wrong and returns 1. A file that was never begun is ready and replaced at once. One
 * that is begun like another has the other's owner, group and mode where it is new. */
int whole_begin(struct whole *whole, const char *name);
int whole_begin_like(struct whole *whole, const char *name, const char *other);
int whole_write(struct whole *whole, const void *bytes, size_t length);
int whole_ready(struct whole *whole);
int whole_replace(struct whole *whole);

/* Takes the temporary file away, unless it was renamed; frees what is held. */
void whole_end(struct whole *whole);

#endif
