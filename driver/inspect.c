/* The commands on a table file: lookup, age, check. */
#include "commands.h"
#include "message.h"
#include "process.h"
#include "store.h"
#include "table.h"

static struct text line;

/* Begins a line with a label and an address. */
static void pair_put(const struct options *options)
{
    if (line.json) {
        json_label(&line, options->kind, options->label);
        json_address(&line, "mac", options->audience.mac);
        return;
    }
    text_label(&line, options->kind, options->label);
    text_put(&line, " ");
    text_address(&line, options->audience.mac);
}

int lookup_command(const struct options *options)
{
    static struct table table;
    line.json = options->json;
    if (table_read(&table, options->table, 0) != 0)
        return 1;
    uint64_t answer =
        shinglebar_lookup(options->kind, options->label, options->audience.mac, table.bytes, table.length);
    int found = shinglebar_kind(answer) == SHINGLEBAR_LOOKUP_FOUND;
    pair_put(options);
    if (found && line.json) {
        json_hex(&line, "nickname", shinglebar_nickname(answer), 4);
    } else if (found) {
        text_put(&line, " is behind ");
        text_hex(&line, shinglebar_nickname(answer), 4);
    } else {
        text_put(&line, line.json ? ",\"nickname\":null" : " is not known");
    }
    line_out(&line);
    return output_ready() != 0 || !found;
}

static unsigned learned(const struct table *table)
{
    unsigned count = 0;
    for (unsigned slot = 0; slot < table_slots(table); slot++)
        count += table_record(table, slot).state == SHINGLEBAR_RECORD_LEARNED;
    return count;
}

static void aged_print(unsigned seconds, unsigned freed, unsigned before)
{
    if (line.json) {
        json_number(&line, "seconds_passed", seconds);
        json_number(&line, "became_free", freed);
        json_number(&line, "learned_before", before);
    } else {
        text_number(&line, seconds);
        text_put(&line, " seconds passed: ");
        text_number(&line, freed);
        text_put(&line, " of ");
        text_number(&line, before);
        text_put(&line, " learned records became free");
    }
    line_out(&line);
}

static int age(struct store *store, const struct options *options)
{
    unsigned before = learned(&store->table);
    shinglebar_age((uint16_t)options->by, store->table.bytes, store->table.length);
    store->aged.second += options->by;
    aged_print(options->by, before - learned(&store->table), before);
    table_print(&line, &store->table, &options->audience);
    if (output_ready() == 0 && store_save(store) == 0)
        return 0;
    return bad_data("%s stays as it was", options->table);
}

int age_command(const struct options *options)
{
    static struct store store;
    line.json = options->json;
    store.dry_run = options->dry_run;
    int status = store_open(&store, options->table, 0) != 0 || age(&store, options) != 0;
    store_close(&store);
    return status;
}

/* The lowest free slot: the one that the next address learned is put into. */
static void free_print(uint64_t answer)
{
    int found = shinglebar_kind(answer) == SHINGLEBAR_FREE_SLOT_SLOT;
    if (found && line.json) {
        json_number(&line, "lowest_free_slot", shinglebar_slot(answer));
    } else if (found) {
        text_put(&line, "lowest free slot: ");
        text_number(&line, shinglebar_slot(answer));
    } else {
        text_put(&line, line.json ? "\"lowest_free_slot\":null" : "no slot is free");
    }
    line_out(&line);
}

int check_command(const struct options *options)
{
    static struct table table;
    line.json = options->json;
    if (table_read(&table, options->table, 0) != 0)
        return 1;
    uint64_t answer = shinglebar_spoilt(table.bytes, table.length);
    int spoilt = shinglebar_kind(answer) == SHINGLEBAR_SPOILT_SLOT;
    if (spoilt && line.json) {
        json_number(&line, "lowest_spoilt_slot", shinglebar_slot(answer));
    } else if (spoilt) {
        text_put(&line, "lowest spoilt slot: ");
        text_number(&line, shinglebar_slot(answer));
    } else {
        text_put(&line, line.json ? "\"lowest_spoilt_slot\":null" : "no slot is spoilt");
    }
    line_out(&line);
    free_print(shinglebar_free_slot(table.bytes, table.length));
    table_print(&line, &table, &options->audience);
    return output_ready() != 0 || spoilt;
}
