#define _POSIX_C_SOURCE 200809L
#include "store.h"

#include <errno.h>
#include <stdio.h>
#include <stdlib.h>
#include <string.h>
#include <unistd.h>

#include "lock.h"
#include "message.h"
#include "path.h"

static int busy(const struct store *store)
{
    long process = lock_holder(store->lock);
    if (process == 0)
        return bad_data("%s is in use by another process (%s)", store->name, store->lock);
    return bad_data("%s is in use by process %ld (%s)", store->name, process, store->lock);
}

/* Holds the file that stands for the table file, which itself comes and goes. */
static int hold(struct store *store)
{
    int file = lock_create(store->lock);
    if (file < 0 && errno == EWOULDBLOCK)
        return busy(store);
    if (file < 0)
        return bad_data("%s cannot be written: %s", store->name, strerror(errno));
    store->lock_file = file;
    /* For the message of the process that comes second; without it that says less. */
    dprintf(file, "%ld\n", (long)getpid());
    return 0;
}

/* Whether a file can be replaced, owner and all, is tried before any work is done. */
static int try_file(const char *name, const char *like)
{
    struct whole trial = WHOLE_NONE;
    int status = whole_begin_like(&trial, name, like);
    whole_end(&trial);
    return status;
}

static int name_files(struct store *store)
{
    char *target = path_target(store->name);
    store->lock = target == NULL ? NULL : path_with(target, STORE_LOCK);
    store->aged_name = target == NULL ? NULL : path_with(target, AGED_ENDING);
    free(target);
    if (store->lock != NULL && store->aged_name != NULL)
        return 0;
    return bad_data("%s cannot be opened: %s", store->name, strerror(errno));
}

static int begin(struct store *store, const char *name)
{
    store->name = name;
    store->lock_file = -1;
    if (name_files(store) != 0)
        return 1;
    return !store->dry_run
           && (hold(store) != 0 || try_file(name, name) != 0 || try_file(store->aged_name, name) != 0);
}

/* The second to which the table in the file was aged. */
static int find_aged(struct store *store, const struct table *in_file)
{
    store->aged.sum = aged_sum(in_file);
    if (aged_read(&store->aged, store->aged_name) != 0)
        return 1;
    store->saved = store->aged;
    return 0;
}

int store_open(struct store *store, const char *name, unsigned long slots)
{
    return begin(store, name) != 0 || table_read(&store->table, name, slots) != 0
           || find_aged(store, &store->table) != 0;
}

int store_open_old(struct store *store, const char *name)
{
    static struct table old;
    struct table *table = &store->table;
    if (begin(store, name) != 0 || table_read_old(&old, name) != 0 || find_aged(store, &old) != 0)
        return 1;
    uint64_t answer = shinglebar_widen(old.bytes, old.length, table->bytes, sizeof table->bytes);
    if (shinglebar_is_refusal(answer))
        return bad_data("%s is not widened: refused %u", name, shinglebar_refusal(answer));
    table->length = shinglebar_written_length(answer);
    return 0;
}

int store_ready(struct store *store)
{
    store->aged.sum = aged_sum(&store->table);
    if (store->dry_run)
        return 0;
    const char *line = table_line(&store->table);
    return whole_begin(&store->file, store->name) != 0 || whole_write(&store->file, line, strlen(line)) != 0
           || whole_write(&store->file, store->table.bytes, store->table.length) != 0 || whole_ready(&store->file) != 0
           || (store->aged.known
               && aged_write(&store->aged_file, store->aged_name, store->name, &store->saved, &store->aged) != 0);
}

int store_replace(struct store *store)
{
    /* The seconds first: they serve the table that is there and the one that comes. */
    int status = whole_replace(&store->aged_file) != 0 || whole_replace(&store->file) != 0;
    whole_end(&store->aged_file);
    whole_end(&store->file);
    if (status == 0)
        store->saved = store->aged;
    return status;
}

int store_is_changed(const struct store *store)
{
    return aged_sum(&store->table) != store->saved.sum;
}

int store_save(struct store *store)
{
    int status = store_ready(store) != 0 || store_replace(store) != 0;
    whole_end(&store->aged_file);
    whole_end(&store->file);
    return status;
}

void store_close(struct store *store)
{
    whole_end(&store->aged_file);
    whole_end(&store->file);
    if (store->lock != NULL && store->lock_file >= 0) {
        /* Held until it is gone. */
        unlink(store->lock);
        close(store->lock_file);
    }
    free(store->lock);
    free(store->aged_name);
    store->lock = NULL;
    store->aged_name = NULL;
}
