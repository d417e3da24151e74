#include "receiver.h"

#include <string.h>

#include "answer.h"
#include "flush.h"
#include "frame.h"
#include "path.h"
#include "process.h"

static void count(struct receiver *receiver, uint64_t answer)
{
    receiver->frames++;
    switch (shinglebar_kind(answer)) {
    case SHINGLEBAR_RECEIVE_DELIVERED:
        receiver->learning[shinglebar_learning(answer)]++;
        break;
    case SHINGLEBAR_RECEIVE_ONWARD:
        receiver->onward++;
        break;
    case SHINGLEBAR_RECEIVE_OTHER_CHANNEL:
        receiver->other_channel++;
        break;
    case SHINGLEBAR_RECEIVE_FLUSHED:
        receiver->flushes++;
        receiver->cleared += shinglebar_count(answer);
        break;
    default:
        receiver->refused[shinglebar_refusal(answer)]++;
    }
}

/* What an answer changed in the table. Returns the slot that a delivered frame was judged against where it changed nothing, or -1. Answers
 * other than these change nothing, by the library's contract, and are not searched for. */
static int find_changes(struct receiver *receiver, uint64_t answer, uint64_t source, const struct frame *frame,
                        struct changes *changes)
{
    const struct table *now = &receiver->store.table;
    const struct audience *audience = &receiver->options->audience;
    struct shadow *shadow = &receiver->shadow;
    unsigned kind = shinglebar_kind(answer), learning = shinglebar_learning(answer);
    if (kind == SHINGLEBAR_RECEIVE_FLUSHED && shinglebar_count(answer) > 0)
        shadow_all(shadow, now, audience, changes);
    if (kind != SHINGLEBAR_RECEIVE_DELIVERED || learning == SHINGLEBAR_LEARNING_FULL)
        return -1;
    int refreshed = learning == SHINGLEBAR_LEARNING_REFRESHED;
    const struct home home = {.kind = shinglebar_label_kind(answer),
                              .label = shinglebar_label(answer),
                              .mac = source,
                              .nickname = frame_ingress(frame),
                              .marked = frame_is_marked(frame, receiver->options->settings.multihomed)};
    if (learning != SHINGLEBAR_LEARNING_KEPT)
        shadow_learned(shadow, now, &home, refreshed, audience, changes);
    return changes->count > 0 ? -1 : shadow_judged(shadow, now, &home, refreshed);
}

/* Where learning wrote or kept the same bytes, the slot is shown all the same. */
static void unchanged_put(struct text *to, const struct table *table, int slot)
{
    if (!to->json)
        text_put(to, "table unchanged");
    if (slot < 0)
        return;
    if (to->json) {
        json_open(to, "unchanged", "{");
        json_number(to, "slot", (uint64_t)slot);
    } else {
        text_put(to, " (slot ");
        text_number(to, (uint64_t)slot);
        text_put(to, ": ");
    }
    record_put(to, table_slot(table, (unsigned)slot));
    text_put(to, to->json ? "}" : ")");
}

/* The VLAN with which a port that has a map delivered a fine-grained frame. */
static void tag_put(struct text *to, const struct receiver *receiver, uint64_t answer, const uint8_t *native)
{
    if (receiver->options->settings.map_len == 0 || shinglebar_kind(answer) != SHINGLEBAR_RECEIVE_DELIVERED
        || shinglebar_label_kind(answer) != SHINGLEBAR_LABEL_FINE_GRAINED)
        return;
    uint32_t vlan = (uint32_t)(native[14] & 0xF) << 8 | native[15];
    if (to->json) {
        json_number(to, "native_vlan", vlan);
        return;
    }
    text_put(to, ", tagged ");
    text_label(to, SHINGLEBAR_LABEL_VLAN, vlan);
}

static void line_print(struct receiver *receiver, const struct captured *captured, uint64_t answer, const uint8_t *native)
{
    uint64_t source = 0;
    for (int i = 6; shinglebar_kind(answer) == SHINGLEBAR_RECEIVE_DELIVERED && i < 12; i++)
        source = source << 8 | native[i];
    struct text *line = &receiver->line;
    const struct audience *audience = &receiver->options->audience;
    struct changes changes;
    struct frame frame = frame_read(captured->bytes, captured->length, receiver->options->settings.port);
    changes.count = changes.concerning = 0;
    int slot = find_changes(receiver, answer, source, &frame, &changes);
    int named = frame.has_addresses && (frame.source == audience->mac || frame.destination == audience->mac);
    if (audience->is_one && !named && changes.concerning == 0)
        return;
    frame_put(line, receiver->frames, captured, &frame);
    text_put(line, line->json ? "" : " | ");
    answer_put(line, answer, &frame);
    tag_put(line, receiver, answer, native);
    text_put(line, line->json ? "" : " | ");
    if (changes.count > 0 || line->json)
        changes_put(line, &changes);
    if (changes.count == 0)
        unchanged_put(line, &receiver->store.table, slot);
    line_out(line);
}

int receiver_open(struct receiver *receiver, const struct options *options)
{
    receiver->options = options;
    receiver->line.json = options->json;
    receiver->store.dry_run = options->dry_run;
    if (store_open(&receiver->store, options->table, options->slots) != 0)
        return 1;
    shadow_begin(&receiver->shadow, &receiver->store.table);
    return 0;
}

static void aged_print(struct receiver *receiver, uint64_t seconds, uint64_t second)
{
    struct text *line = &receiver->line;
    struct changes changes;
    changes.count = changes.concerning = 0;
    shadow_freed(&receiver->shadow, &receiver->store.table, &receiver->options->audience, &changes);
    if (changes.concerning == 0)
        return;
    if (line->json) {
        json_time(line, second, 0, 0);
        json_number(line, "seconds_passed", seconds);
        json_number(line, "became_free", changes.count);
    } else {
        text_put(line, "aged: ");
        text_time(line, second, 0, 0);
        text_put(line, " ");
        text_number(line, seconds);
        text_put(line, " seconds passed | ");
        text_number(line, changes.count);
        text_put(line, " became free | ");
    }
    changes_put(line, &changes);
    line_out(line);
}

void receiver_pass(struct receiver *receiver, uint64_t seconds, uint64_t second)
{
    struct table *table = &receiver->store.table;
    receiver->store.aged.known = 1;
    receiver->store.aged.second = second;
    if (seconds == 0)
        return;
    shinglebar_age((uint16_t)(seconds > UINT16_MAX ? UINT16_MAX : seconds), table->bytes, table->length);
    if (!receiver->options->quiet)
        aged_print(receiver, seconds, second);
}

void receiver_age(struct receiver *receiver, uint64_t second)
{
    const struct aged *aged = &receiver->store.aged;
    if (!aged->known)
        receiver_pass(receiver, 0, second);
    else if (second > aged->second)
        receiver_pass(receiver, second - aged->second, second);
}

static void portion_print(struct receiver *receiver, uint64_t answer)
{
    struct text *line = &receiver->line;
    const struct portion *portion = &receiver->portion;
    struct changes changes;
    changes.count = changes.concerning = 0;
    if (shinglebar_count(answer) > 0)
        shadow_all(&receiver->shadow, &receiver->store.table, &receiver->options->audience, &changes);
    if (receiver->options->audience.is_one && changes.concerning == 0)
        return;
    if (line->json) {
        json_words(line, "portion", portion->is_open ? "done" : "last");
        json_number(line, "next_slot", shinglebar_next_slot(answer));
        json_number(line, "examined", shinglebar_examined(answer));
        json_number(line, "cleared", shinglebar_count(answer));
    } else {
        text_put(line, portion->is_open ? "portion: " : "last portion: ");
        text_number(line, shinglebar_examined(answer));
        text_put(line, " slots examined, next ");
        text_number(line, shinglebar_next_slot(answer));
        text_put(line, ", ");
        text_number(line, shinglebar_count(answer));
        text_put(line, " cleared | ");
    }
    if (changes.count > 0 || line->json)
        changes_put(line, &changes);
    else
        text_put(line, "table unchanged");
    line_out(line);
}

/* One portion of an open flush. */
static void step(struct receiver *receiver)
{
    uint64_t answer;
    if (!receiver->portion.is_open)
        return;
    answer = portion_step(&receiver->portion, receiver->options, &receiver->store.table);
    if (shinglebar_is_refusal(answer)) {
        receiver->refused[shinglebar_refusal(answer)]++;
        return;
    }
    receiver->cleared += shinglebar_count(answer);
    if (!receiver->options->quiet)
        portion_print(receiver, answer);
}

void receiver_finish(struct receiver *receiver)
{
    while (receiver->portion.is_open)
        step(receiver);
}

/* The line of a frame whose flush is carried out in portions: what it means. */
static void opened_print(struct receiver *receiver, const struct captured *captured)
{
    struct text *line = &receiver->line;
    const struct audience *audience = &receiver->options->audience;
    const struct portion *portion = &receiver->portion;
    struct frame frame = frame_read(captured->bytes, captured->length, receiver->options->settings.port);
    if (audience->is_one && frame.source != audience->mac && frame.destination != audience->mac)
        return;
    frame_put(line, receiver->frames, captured, &frame);
    if (line->json) {
        json_words(line, "answer", "flush in portions");
        json_number(line, "slots", receiver->options->portion);
    } else {
        text_put(line, " | flush in portions of ");
        text_number(line, receiver->options->portion);
    }
    flush_put(line, portion->ingress, portion->payload, portion->length);
    line_out(line);
}

/* A frame that brings a flush opens it; one that is open is carried out to its end first. 1 if it was such a frame. */
static int take_flush(struct receiver *receiver, const struct captured *frame)
{
    static struct portion next;
    if (receiver->options->portion == 0 || !portion_open(&next, receiver->options, frame->bytes, frame->length))
        return 0;
    receiver_finish(receiver);
    receiver->portion = next;
    count(receiver, SHINGLEBAR_RECEIVE_FLUSHED);
    if (!receiver->options->quiet)
        opened_print(receiver, frame);
    step(receiver);
    return 1;
}

int receiver_take(struct receiver *receiver, const struct captured *frame)
{
    if (take_flush(receiver, frame))
        return 0;
    step(receiver);
    static uint8_t native[SHINGLEBAR_FRAME_LENGTH_MAX];
    struct table *table = &receiver->store.table;
    uint64_t answer = shinglebar_receive_any(&receiver->options->settings, frame->bytes, frame->length, table->bytes,
                                             table->length, native, sizeof native);
    int delivered = shinglebar_kind(answer) == SHINGLEBAR_RECEIVE_DELIVERED;
    count(receiver, answer);
    if (!receiver->options->quiet)
        line_print(receiver, frame, answer, native);
    if (!delivered)
        return 0;
    return capture_add(&receiver->out, receiver->form, frame, native, shinglebar_native_length(answer));
}

static unsigned long sum(const unsigned long *numbers, int count)
{
    unsigned long total = 0;
    for (int i = 0; i < count; i++)
        total += numbers[i];
    return total;
}

struct total {
    const char *words;
    const char *name;
    unsigned long count;
};

static void totals_put(struct text *to, const struct receiver *receiver)
{
    const unsigned long *learning = receiver->learning;
    const struct total totals[] = {
        {" frames: ", "frames", receiver->frames},
        {" delivered (", "delivered", sum(learning, 4)},
        {" learned, ", "learned", learning[SHINGLEBAR_LEARNING_LEARNED]},
        {" refreshed, ", "refreshed", learning[SHINGLEBAR_LEARNING_REFRESHED]},
        {" kept, ", "kept", learning[SHINGLEBAR_LEARNING_KEPT]},
        {" full), ", "full", learning[SHINGLEBAR_LEARNING_FULL]},
        {" onward, ", "onward", receiver->onward},
        {" flushes (", "flushes", receiver->flushes},
        {" cleared), ", "cleared", receiver->cleared},
        {" other channel, ", "other_channel", receiver->other_channel},
        {" refused", "refused", sum(receiver->refused, REFUSALS)},
    };
    for (size_t i = 0; i < sizeof totals / sizeof totals[0]; i++) {
        if (to->json) {
            json_number(to, totals[i].name, totals[i].count);
            continue;
        }
        text_number(to, totals[i].count);
        text_put(to, totals[i].words);
    }
    if (receiver->is_live && to->json) {
        json_number(to, "lost", receiver->lost);
    } else if (receiver->is_live) {
        text_put(to, ", ");
        text_number(to, receiver->lost);
        text_put(to, " lost");
    }
}

void receiver_report(struct receiver *receiver)
{
    struct text *line = &receiver->line;
    receiver_finish(receiver);
    totals_put(line, receiver);
    line_out(line);
    for (unsigned i = 1; i < REFUSALS; i++) {
        if (receiver->refused[i] == 0)
            continue;
        if (line->json) {
            refusal_put(line, "", i);
            json_number(line, "count", receiver->refused[i]);
        } else {
            text_put(line, "  refused ");
            text_number(line, i);
            text_put(line, ": ");
            text_number(line, receiver->refused[i]);
            text_put(line, " (");
            text_put(line, shinglebar_refusal_string(i));
            text_put(line, ")");
        }
        line_out(line);
    }
    table_print(line, &receiver->store.table, &receiver->options->audience);
}

int receiver_flush(struct receiver *receiver)
{
    return output_ready() != 0 || (is_standard(receiver->options->out) && whole_ready(&receiver->out) != 0);
}

int receiver_keep(struct receiver *receiver)
{
    receiver_finish(receiver);
    return whole_ready(&receiver->out) != 0 || store_ready(&receiver->store) != 0 || whole_replace(&receiver->out) != 0
           || store_replace(&receiver->store) != 0;
}

void receiver_close(struct receiver *receiver)
{
    whole_end(&receiver->out);
    store_close(&receiver->store);
}
