/* The command `live`: the frames of an interface through the receiver. */
#define _POSIX_C_SOURCE 200809L
#include <stdio.h>
#include <time.h>

#include "commands.h"
#include "interface.h"
#include "message.h"
#include "notice.h"
#include "path.h"
#include "process.h"
#include "receiver.h"
#include "watch.h"

#define WAIT_MILLISECONDS 100
#define LOST_STATUS 3

/* The seconds are of the clock that runs evenly: the last one that has passed for the table, that of the last save, the end. */
struct live {
    const struct options *options;
    struct receiver receiver;
    struct interface interface;
    struct watch watch;
    uint64_t passed, saved, end;
};

/* A clock that also runs while the machine sleeps, and is never set. */
static uint64_t even_seconds(void)
{
    struct timespec now;
    clock_gettime(CLOCK_BOOTTIME, &now);
    return (uint64_t)now.tv_sec;
}

static uint64_t wall_seconds(void)
{
    struct timespec now;
    clock_gettime(CLOCK_REALTIME, &now);
    return (uint64_t)now.tv_sec;
}

/* Lets the time pass for the table in which nobody was listening. */
static void pass_night(struct receiver *receiver)
{
    const struct aged *aged = &receiver->store.aged;
    uint64_t now = wall_seconds();
    if (aged->known && aged->second > now) {
        bad_data("%s was aged to a second that is still to come; it ages from now on", receiver->store.name);
        receiver_pass(receiver, 0, now);
    }
    receiver_age(receiver, now);
}

static void state_print(struct live *live, const char *state)
{
    struct text *line = &live->receiver.line;
    if (line->json) {
        json_time(line, wall_seconds(), 0, 0);
        json_words(line, "interface", live->interface.name);
        json_words(line, "state", state);
    } else {
        text_put(line, "interface ");
        text_put(line, live->interface.name);
        text_put(line, ": ");
        text_time(line, wall_seconds(), 0, 0);
        text_put(line, " ");
        text_put(line, state);
    }
    line_out(line);
}

static void listening_print(struct live *live)
{
    struct text *line = &live->receiver.line;
    if (line->json) {
        state_print(live, "listening");
        return;
    }
    text_put(line, "listening on ");
    text_put(line, live->interface.name);
    line_out(line);
}

/* What a frame says of the link, where a watch is kept; a line tells where a stop begins. 0, or 1 if the file fails, which is said. */
static int watch_frame(struct live *live, const struct captured *frame)
{
    char state[80];
    int kind;
    if (live->options->watch == NULL)
        return 0;
    kind = watch_see(&live->watch, frame->bytes, frame->length);
    if (kind >= 0) {
        snprintf(state, sizeof state, "%s: no compaction for %lu seconds", notice_words(kind), (unsigned long)live->watch.now.left);
        state_print(live, state);
    }
    return kind == -2;
}

/* Reads what has come: 0, or 1 if the interface or the output capture fails, which is said. */
static int take_frames(struct live *live)
{
    unsigned long left = live->options->frames == 0 ? INTERFACE_BATCH : live->options->frames - live->receiver.frames;
    if (live->interface.file < 0) {
        if (interface_again(&live->interface))
            state_print(live, "up again");
        return 0;
    }
    switch (interface_read(&live->interface, left < INTERFACE_BATCH ? (unsigned)left : INTERFACE_BATCH)) {
    case INTERFACE_FAILED:
        return 1;
    case INTERFACE_DOWN:
        state_print(live, "down");
        return 0;
    case INTERFACE_READ:
        break;
    }
    /* No frame waits: an open flush comes to its end. */
    if (live->interface.count == 0)
        receiver_finish(&live->receiver);
    for (unsigned i = 0; i < live->interface.count; i++)
        if (receiver_take(&live->receiver, live->interface.frames[i]) != 0
            || watch_frame(live, live->interface.frames[i]) != 0)
            return 1;
    return 0;
}

/* Writes the table file from time to time, and when asked. A save that fails is said and tried again. */
static void save(struct live *live)
{
    uint64_t now = even_seconds();
    int asked = save_asked();
    if (!asked && now - live->saved < live->options->save)
        return;
    live->saved = now;
    if (!asked && !store_is_changed(&live->receiver.store))
        return;
    if (store_save(&live->receiver.store) == 0 && asked && !live->options->dry_run)
        state_print(live, "table saved");
}

/* Once a second: the table ages, and the progress line tells frames and losses. */
static void pass_second(struct live *live)
{
    uint64_t now = even_seconds();
    if (now == live->passed)
        return;
    receiver_pass(&live->receiver, now - live->passed, wall_seconds());
    live->passed = now;
    interface_count_lost(&live->interface);
    progress_live(live->receiver.frames, live->interface.lost);
}

static int is_over(const struct live *live)
{
    return stop_asked() || (live->options->frames != 0 && live->receiver.frames >= live->options->frames)
           || (live->end != 0 && even_seconds() >= live->end);
}

/* Until the frames or seconds asked for, or a signal: 0; 1 if the interface, the output or the lines fail, which is said. */
static int listen_on(struct live *live)
{
    live->passed = live->saved = even_seconds();
    live->end = live->options->duration == 0 ? 0 : live->passed + live->options->duration;
    pass_night(&live->receiver);
    listening_print(live);
    while (!is_over(live)) {
        if (receiver_flush(&live->receiver) != 0)
            return 1;
        interface_wait(&live->interface, WAIT_MILLISECONDS);
        pass_second(live);
        if (take_frames(live) != 0)
            return 1;
        save(live);
    }
    return 0;
}

/* What was learned is kept, whatever else failed. */
static int keep(struct live *live)
{
    struct receiver *receiver = &live->receiver;
    int status = 0;
    interface_count_lost(&live->interface);
    receiver->lost = live->interface.lost;
    receiver_report(receiver);
    if (receiver->lost != 0) {
        bad_data("interface %s: %lu frames were lost before they were read", live->interface.name, receiver->lost);
        status = LOST_STATUS;
    }
    if (store_save(&receiver->store) != 0)
        status = bad_data("%s stays as it was last written", receiver->store.name);
    if (whole_ready(&receiver->out) != 0 || whole_replace(&receiver->out) != 0)
        status = bad_data("%s is not written", live->options->out);
    return output_ready() != 0 ? 1 : status;
}

static int run(struct live *live)
{
    const struct options *options = live->options;
    if (receiver_open(&live->receiver, options) != 0 || watch_open(&live->watch, options->watch, 1) != 0
        || interface_open(&live->interface, options->interface) != 0
        || capture_create(&live->receiver.out, options->out, live->receiver.form) != 0)
        return 1;
    int status = listen_on(live);
    int kept = keep(live);
    return status != 0 ? status : kept;
}

int live_command(const struct options *options)
{
    static struct live live;
    live.options = options;
    live.interface.file = -1;
    live.watch.file = -1;
    live.receiver.form.nanoseconds = 1;
    live.receiver.is_live = 1;
    if (same_file(options->out, options->table))
        return bad_usage("--table and --out are different files");
    int status = run(&live);
    watch_close(&live.watch);
    interface_close(&live.interface);
    receiver_close(&live.receiver);
    return status;
}
