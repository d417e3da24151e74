/* A table file that is in use: held against other processes from before it is read until it has been written. */
#ifndef STORE_H
#define STORE_H

#include "aged.h"
#include "table.h"
#include "whole.h"

/* What the name of the file ends with that a process holds while it uses a table file. */
#define STORE_LOCK ".shinglebar-lock"

/* `aged` is of the table in memory, `saved` of the one in the file. A dry run holds and writes nothing. */
struct store {
    const char *name;
    int dry_run;
    char *lock;
    int lock_file;
    char *aged_name;
    struct whole file;
    struct whole aged_file;
    struct table table;
    struct aged aged;
    struct aged saved;
};

/* Each returns 0, or says what is wrong and returns 1. Opening makes sure that the file can be replaced, and reads it as
 * `table_read` does. Saving is two steps: the table is written beside its file, and replaces it. */
int store_open(struct store *store, const char *name, unsigned long slots);
int store_ready(struct store *store);
int store_replace(struct store *store);

/* The same of a file with records of 14 bytes: the table is the widened one. */
int store_open_old(struct store *store, const char *name);

/* Both steps. */
int store_save(struct store *store);

/* Whether the table differs from what was read or last saved. */
int store_is_changed(const struct store *store);

/* Lets go of the file. A store that was never opened is all zero. */
void store_close(struct store *store);

#endif
