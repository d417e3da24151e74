#define _POSIX_C_SOURCE 200809L
#include "table.h"

#include <errno.h>
#include <string.h>

#include "message.h"
#include "process.h"

#define LINE_LENGTH (sizeof TABLE_LINE - 1)

/* Whether records of 14 bytes can have this length. */
static int fits_old(size_t length)
{
    return length > 0 && length % SHINGLEBAR_OLD_RECORD_LENGTH == 0 && length <= SHINGLEBAR_OLD_TABLE_LENGTH_MAX;
}

static int fits(size_t length)
{
    return length > 0 && length % SHINGLEBAR_RECORD_LENGTH == 0 && length <= SHINGLEBAR_TABLE_LENGTH_MAX;
}

const char *table_line(const struct table *table)
{
    return fits_old(table->length) ? TABLE_LINE : "";
}

/* The records of a file, and whether the line is in front of them. */
static int records_read(FILE *file, const char *name, struct table *table, int *has_line)
{
    table->length = fread(table->bytes, 1, LINE_LENGTH, file);
    *has_line = table->length == LINE_LENGTH && memcmp(table->bytes, TABLE_LINE, LINE_LENGTH) == 0;
    if (*has_line)
        table->length = 0;
    table->length += fread(table->bytes + table->length, 1, sizeof table->bytes - table->length, file);
    int bad = ferror(file) ? bad_data("%s cannot be read: %s", name, strerror(errno)) : 0;
    fclose(file);
    return bad;
}

int table_read_old(struct table *old, const char *name)
{
    int has_line = 0;
    FILE *file = fopen(name, "rb");
    if (file == NULL)
        return bad_data("%s cannot be opened: %s", name, strerror(errno));
    if (records_read(file, name, old, &has_line) != 0)
        return 1;
    if (has_line || (fits(old->length) && !fits_old(old->length)))
        return bad_data("%s has records of %d bytes already", name, SHINGLEBAR_RECORD_LENGTH);
    if (!fits_old(old->length))
        return bad_data("%s is no table of records of %d bytes: it has %zu%s bytes", name, SHINGLEBAR_OLD_RECORD_LENGTH,
                        old->length, old->length == sizeof old->bytes ? " or more" : "");
    return 0;
}

/* A file without the line whose length fits records of 14 bytes is never taken for one of 15. */
static int refuse_old(const char *name, size_t length)
{
    if (!fits(length))
        return bad_data("%s has records of %d bytes; `widen` makes them %d", name, SHINGLEBAR_OLD_RECORD_LENGTH,
                        SHINGLEBAR_RECORD_LENGTH);
    return bad_data("%s has %zu bytes and does not say of which width: %zu records of %d bytes, which `widen` makes %d, or %zu of "
                    "%d, which a first line `%.*s` says",
                    name, length, length / SHINGLEBAR_OLD_RECORD_LENGTH, SHINGLEBAR_OLD_RECORD_LENGTH,
                    SHINGLEBAR_RECORD_LENGTH, length / SHINGLEBAR_RECORD_LENGTH, SHINGLEBAR_RECORD_LENGTH,
                    (int)LINE_LENGTH - 1, TABLE_LINE);
}

/* Says why a table file was not opened: 1. */
static int not_opened(const char *name)
{
    if (errno == ENOENT)
        return bad_data("%s is not there; `receive`, `live` and `set` make it if --slots N is given", name);
    return bad_data("%s cannot be opened: %s", name, strerror(errno));
}

int table_load(struct table *table, const char *name, int *has_line)
{
    FILE *file = fopen(name, "rb");
    return file == NULL ? not_opened(name) : records_read(file, name, table, has_line);
}

int table_is_unclear(const struct table *table, const char *name, int has_line)
{
    return !has_line && fits(table->length) && fits_old(table->length) ? refuse_old(name, table->length) : 0;
}

int table_check(const struct table *table, const char *name, int has_line)
{
    if (!has_line && fits_old(table->length))
        return refuse_old(name, table->length);
    uint64_t answer = shinglebar_spoilt_any(table->bytes, table->length);
    if (!shinglebar_is_refusal(answer))
        return 0;
    return bad_data("%s is no address table: it has %zu%s bytes; refused %u: %s", name, table->length,
                    table->length == sizeof table->bytes ? " or more" : "", shinglebar_refusal(answer),
                    shinglebar_refusal_string(answer));
}

int table_read(struct table *table, const char *name, unsigned long slots)
{
    int has_line = 0;
    FILE *file = fopen(name, "rb");
    if (file == NULL && errno == ENOENT && slots != 0) {
        table->length = slots * SHINGLEBAR_RECORD_LENGTH;
        memset(table->bytes, 0, table->length);
        return 0;
    }
    if (file == NULL)
        return not_opened(name);
    if (records_read(file, name, table, &has_line) != 0 || table_check(table, name, has_line) != 0)
        return 1;
    if (slots != 0 && slots != table_slots(table))
        return bad_data("%s has %u slots, and --slots says %lu", name, table_slots(table), slots);
    return 0;
}

unsigned table_slots(const struct table *table)
{
    return (unsigned)(table->length / SHINGLEBAR_RECORD_LENGTH);
}

const uint8_t *table_slot(const struct table *table, unsigned slot)
{
    return table->bytes + (size_t)slot * SHINGLEBAR_RECORD_LENGTH;
}

struct shinglebar_record table_record(const struct table *table, unsigned slot)
{
    return shinglebar_unpack_record(table_slot(table, slot));
}

/* The lowest slots of a pair, each -1 if there is none: any, a configured one, an unmarked learned one, a marked one behind a nickname. */
struct homes {
    int lowest, configured, unmarked, marked;
};

static struct homes find_homes(const struct table *table, const struct home *home)
{
    struct homes found = {-1, -1, -1, -1};
    uint8_t wanted[SHINGLEBAR_RECORD_LENGTH];
    const struct shinglebar_record some = {
        .state = SHINGLEBAR_RECORD_LEARNED, .label_kind = home->kind, .label = home->label, .mac = home->mac, .nickname = 1};
    /* No record holds a pair that cannot be packed. */
    if (!shinglebar_pack_record(&some, wanted))
        return found;
    /* The lowest comes last. */
    for (unsigned slot = table_slots(table); slot-- > 0;) {
        /* Bytes 1 to 8 hold nothing but label and address: most slots are told by them. */
        if (memcmp(table_slot(table, slot) + 1, wanted + 1, 8) != 0)
            continue;
        struct shinglebar_record record = table_record(table, slot);
        if (!record_holds(&record, home->kind, home->label, home->mac))
            continue;
        found.lowest = (int)slot;
        if (record.state == SHINGLEBAR_RECORD_CONFIGURED)
            found.configured = (int)slot;
        else if (!record.multihomed)
            found.unmarked = (int)slot;
        else if (record.nickname == home->nickname)
            found.marked = (int)slot;
    }
    return found;
}

int table_find(const struct table *table, unsigned kind, uint32_t label, uint64_t mac)
{
    const struct home home = {.kind = kind, .label = label, .mac = mac};
    struct homes found = find_homes(table, &home);
    return found.configured >= 0 ? found.configured : found.lowest;
}

int table_lowest(const struct table *table, unsigned kind, uint32_t label, uint64_t mac)
{
    const struct home home = {.kind = kind, .label = label, .mac = mac};
    return find_homes(table, &home).lowest;
}

int table_judged(const struct table *table, const struct home *home)
{
    struct homes found = find_homes(table, home);
    if (found.configured >= 0)
        return found.configured;
    if (!home->marked)
        return found.lowest;
    return found.unmarked >= 0 ? found.unmarked : found.marked;
}

int concerns(const struct audience *audience, const struct shinglebar_record *record)
{
    return !audience->is_one || (record->state != SHINGLEBAR_RECORD_FREE && record->mac == audience->mac);
}

static void counts_put(struct text *to, const struct table *table)
{
    static const char *const NAMES[] = {"learned", "configured", "spoilt", "free"};
    unsigned count[4] = {0, 0, 0, 0};
    for (unsigned slot = 0; slot < table_slots(table); slot++)
        count[table_record(table, slot).state]++;
    const unsigned counts[] = {count[SHINGLEBAR_RECORD_LEARNED], count[SHINGLEBAR_RECORD_CONFIGURED],
                               count[SHINGLEBAR_RECORD_SPOILT], count[SHINGLEBAR_RECORD_FREE]};
    if (to->json)
        json_number(to, "slots", table_slots(table));
    else {
        text_put(to, "table: ");
        text_number(to, table_slots(table));
        text_put(to, " slots");
    }
    for (int i = 0; i < 4; i++) {
        if (to->json) {
            json_number(to, NAMES[i], counts[i]);
            continue;
        }
        text_put(to, ", ");
        text_number(to, counts[i]);
        text_put(to, " ");
        text_put(to, NAMES[i]);
    }
}

void table_print(struct text *line, const struct table *table, const struct audience *audience)
{
    counts_put(line, table);
    line_out(line);
    for (unsigned slot = 0; slot < table_slots(table); slot++) {
        struct shinglebar_record record = table_record(table, slot);
        if (record.state == SHINGLEBAR_RECORD_FREE || !concerns(audience, &record))
            continue;
        if (line->json) {
            json_number(line, "slot", slot);
        } else {
            text_put(line, "  slot ");
            text_number(line, slot);
            text_put(line, ": ");
        }
        record_put(line, table_slot(table, slot));
        line_out(line);
    }
}
