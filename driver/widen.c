/* The command `widen`: a table file with records of 14 bytes becomes one with records of 15. */
#include "commands.h"
#include "message.h"
#include "process.h"
#include "store.h"

static struct text line;

static void widened_print(unsigned slots)
{
    if (line.json) {
        json_number(&line, "widened", slots);
        json_number(&line, "record_bytes_before", SHINGLEBAR_OLD_RECORD_LENGTH);
        json_number(&line, "record_bytes", SHINGLEBAR_RECORD_LENGTH);
    } else {
        text_number(&line, slots);
        text_put(&line, " records of ");
        text_number(&line, SHINGLEBAR_OLD_RECORD_LENGTH);
        text_put(&line, " bytes -> ");
        text_number(&line, SHINGLEBAR_RECORD_LENGTH);
        text_put(&line, " bytes");
    }
    line_out(&line);
}

static int widen(struct store *store, const struct options *options)
{
    widened_print(table_slots(&store->table));
    table_print(&line, &store->table, &options->audience);
    if (output_ready() == 0 && store_save(store) == 0)
        return 0;
    return bad_data("%s stays as it was", options->table);
}

int widen_command(const struct options *options)
{
    static struct store store;
    line.json = options->json;
    store.dry_run = options->dry_run;
    int status = store_open_old(&store, options->table) != 0 || widen(&store, options) != 0;
    store_close(&store);
    return status;
}
