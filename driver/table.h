/* The address table: its file's bytes, and its records in words. */
#ifndef TABLE_H
#define TABLE_H

#include <stdint.h>
#include <stdio.h>

#include "record.h"
#include "shinglebar.h"

#define TABLE_SLOTS_MAX (SHINGLEBAR_TABLE_LENGTH_MAX / SHINGLEBAR_RECORD_LENGTH)

/* A table file says the width of its records: by its length, or where records of 14 bytes could have that length too (multiples of 210)
 * by this line in front of them. */
#define TABLE_LINE "shinglebar table 15\n"

/* One byte more than a table may have, so that a file that is too long is seen. */
struct table {
    size_t length;
    uint8_t bytes[SHINGLEBAR_TABLE_LENGTH_MAX + 1];
};

/* Whom lines are for: all, or one address. */
struct audience {
    int is_one;
    uint64_t mac;
};

/* What a frame teaches, or taught already: a pair of label and address, the nickname that it is behind, and whether the frame was marked. */
struct home {
    unsigned kind;
    uint32_t label;
    uint64_t mac;
    unsigned nickname;
    int marked;
};

/* Reads a table file. Where it is missing and slots is not 0, the table is that many free slots. 0, or 1 and said. */
int table_read(struct table *table, const char *name, unsigned long slots);

/* The steps of reading: the bytes of a file and whether the line is in front of them; whether a length fits both widths and no line says
 * which; whether they are a table. Each 0, or 1 and said. */
int table_load(struct table *table, const char *name, int *has_line);
int table_is_unclear(const struct table *table, const char *name, int has_line);
int table_check(const struct table *table, const char *name, int has_line);

/* Reads a file of records of 14 bytes, as they are. 0, or 1 and said. */
int table_read_old(struct table *old, const char *name);

/* The line that a table's file has in front of the records, empty where their length says it all. */
const char *table_line(const struct table *table);

unsigned table_slots(const struct table *table);
const uint8_t *table_slot(const struct table *table, unsigned slot);
struct shinglebar_record table_record(const struct table *table, unsigned slot);

/* Among the learned and configured slots with this label and address: the lowest configured one, else the lowest; -1 if there is none. */
int table_find(const struct table *table, unsigned kind, uint32_t label, uint64_t mac);

/* The lowest of them. */
int table_lowest(const struct table *table, unsigned kind, uint32_t label, uint64_t mac);

/* The slot that learning judges a frame against, or -1 if it fills a free one. */
int table_judged(const struct table *table, const struct home *home);

/* Whether a record concerns an audience. */
int concerns(const struct audience *audience, const struct shinglebar_record *record);

/* Prints a line of counts, and a line for every slot that is not free and concerns the audience. */
void table_print(struct text *line, const struct table *table, const struct audience *audience);

#endif
