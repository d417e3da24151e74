/* The commands `set` and `unset`: configured records of a table file. */
#include "commands.h"
#include "message.h"
#include "process.h"
#include "shadow.h"
#include "store.h"

static struct text line;

/* The record that the options name, packed as the header does, which packs good records only: 0, or 2 and said. */
static int make_record(const struct options *options, uint8_t *bytes)
{
    const struct shinglebar_record made = {.state = SHINGLEBAR_RECORD_CONFIGURED,
                                           .label_kind = options->kind,
                                           .label = options->label,
                                           .mac = options->audience.mac,
                                           .nickname = options->settings.nickname,
                                           .confidence = options->settings.confidence};
    if (shinglebar_pack_record(&made, bytes))
        return 0;
    return bad_usage("no good record: a VLAN is 1 to 4094, --mac an individual address, --nickname 0001 to FFBF");
}

/* The slot for a record: the configured one of its pair, else the pair's lowest, else the lowest free one; -1 if there is none. */
static int find_slot(const struct table *table, const struct options *options)
{
    int slot = table_find(table, options->kind, options->label, options->audience.mac);
    for (unsigned i = 0; slot < 0 && i < table_slots(table); i++)
        if (table_record(table, i).state == SHINGLEBAR_RECORD_FREE)
            slot = (int)i;
    return slot;
}

/* Puts bytes into a slot, and prints what changed. */
static void change(struct store *store, unsigned slot, const uint8_t *bytes)
{
    struct change changed = change_make(&store->table, slot, bytes);
    change_put(&line, &changed);
    line_out(&line);
}

/* A configured record is its pair's only one: the homes that were learned become free. */
static void free_homes(struct store *store, const struct options *options)
{
    const uint8_t nothing[SHINGLEBAR_RECORD_LENGTH] = {0};
    for (unsigned slot = 0; slot < table_slots(&store->table); slot++) {
        struct shinglebar_record record = table_record(&store->table, slot);
        if (record.state == SHINGLEBAR_RECORD_LEARNED
            && record_holds(&record, options->kind, options->label, options->audience.mac))
            change(store, slot, nothing);
    }
}

/* Replaces the table file. */
static int save(struct store *store)
{
    if (output_ready() == 0 && store_save(store) == 0)
        return 0;
    return bad_data("%s stays as it was", store->name);
}

static int set(struct store *store, const struct options *options)
{
    uint8_t bytes[SHINGLEBAR_RECORD_LENGTH];
    int status = make_record(options, bytes);
    if (status != 0)
        return status;
    if (store_open(store, options->table, options->slots) != 0)
        return 1;
    int slot = find_slot(&store->table, options);
    if (slot < 0)
        return bad_data("%s is full", options->table);
    change(store, (unsigned)slot, bytes);
    free_homes(store, options);
    return save(store);
}

static int unset(struct store *store, const struct options *options)
{
    const uint8_t nothing[SHINGLEBAR_RECORD_LENGTH] = {0};
    if (store_open(store, options->table, 0) != 0)
        return 1;
    int slot = table_find(&store->table, options->kind, options->label, options->audience.mac);
    if (slot < 0)
        return bad_data("%s has no record of that label and address", options->table);
    if (table_record(&store->table, (unsigned)slot).state != SHINGLEBAR_RECORD_CONFIGURED)
        return bad_data("%s: slot %d is learned, not configured", options->table, slot);
    change(store, (unsigned)slot, nothing);
    return save(store);
}

static int run(const struct options *options, int (*command)(struct store *, const struct options *))
{
    static struct store store;
    line.json = options->json;
    store.dry_run = options->dry_run;
    int status = command(&store, options);
    store_close(&store);
    return status;
}

int set_command(const struct options *options)
{
    return run(options, set);
}

int unset_command(const struct options *options)
{
    return run(options, unset);
}
