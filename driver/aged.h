/* The second of the wall clock to which a table was last aged. It is kept in a file beside the table file, so that this stays plain
 * records: a line for a table, the second since 1970 and a sum of the records. A table whose sum is not there came without it. */
#ifndef AGED_H
#define AGED_H

#include "table.h"
#include "whole.h"

/* What the name of that file ends with. */
#define AGED_ENDING ".aged"

struct aged {
    int known;
    uint64_t second;
    uint64_t sum;
};

/* A sum that tells tables apart. */
uint64_t aged_sum(const struct table *table);

/* Reads the second of a table with this sum, if the file has it: 0, or 1 and said. */
int aged_read(struct aged *aged, const char *path);

/* Writes the file anew beside its table: a line for the table that it belongs to now, and one for the table that is about to replace it,
 * so that whichever is there finds its own. 0, or 1 and said. */
int aged_write(struct whole *file, const char *path, const char *table, const struct aged *now, const struct aged *next);

#endif
