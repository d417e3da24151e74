/* The command `why`: why a flush clears the records of an address, or leaves them. The table file is read and not written. */
#include <string.h>

#include "answer.h"
#include "commands.h"
#include "flush.h"
#include "frame.h"
#include "message.h"
#include "path.h"
#include "process.h"
#include "receiver.h"

static struct text line;

/* Flushes that were met, records that were told of, those cleared, and the last frame that cleared one. */
struct told {
    unsigned long flushes, records, cleared, last;
};

/* A flush: where from, and its payload. */
struct message {
    uint32_t ingress;
    const uint8_t *payload;
    size_t length;
};

/* The type of the TLV at a place of a payload that the library accepted. */
static unsigned tlv_type(const struct message *message, uint32_t place)
{
    size_t at = 2 + 2 * (size_t)message->payload[0];
    while (place-- > 0)
        at += 2 + (size_t)message->payload[at + 1];
    return message->payload[at];
}

static void json_piece(const char *by, const char *place_name, const char *type_name, const struct message *message,
                       int by_tlv, uint32_t place)
{
    json_words(&line, by, by_tlv ? "TLV" : "block");
    json_number(&line, place_name, place);
    if (by_tlv)
        json_number(&line, type_name, tlv_type(message, place));
}

static void text_piece(const struct message *message, int by_tlv, uint32_t place)
{
    text_put(&line, by_tlv ? " by TLV " : " by block ");
    text_number(&line, place);
    if (by_tlv) {
        text_put(&line, " of type ");
        text_number(&line, tlv_type(message, place));
    }
}

static void json_cleared(uint64_t answer, const struct message *message)
{
    int every = shinglebar_is_every_mac(answer);
    json_truth(&line, "sender", shinglebar_is_sender(answer));
    if (!shinglebar_is_sender(answer))
        json_number(&line, "nickname_place", shinglebar_nickname_place(answer));
    json_piece("label_by", "label_place", "label_type", message, shinglebar_label_is_by_tlv(answer),
               shinglebar_label_place(answer));
    json_truth(&line, "every_mac", every);
    if (!every)
        json_piece("mac_by", "mac_place", "mac_type", message, 1, shinglebar_mac_place(answer));
}

static void text_cleared(uint64_t answer, const struct message *message, const struct shinglebar_record *record)
{
    text_put(&line, "cleared: nickname ");
    text_hex(&line, record->nickname, 4);
    if (shinglebar_is_sender(answer)) {
        text_put(&line, " (the sender's), ");
    } else {
        text_put(&line, " (listed, place ");
        text_number(&line, shinglebar_nickname_place(answer));
        text_put(&line, "), ");
    }
    text_label(&line, record->label_kind, record->label);
    text_piece(message, shinglebar_label_is_by_tlv(answer), shinglebar_label_place(answer));
    if (shinglebar_is_every_mac(answer)) {
        text_put(&line, ", every MAC");
        return;
    }
    text_put(&line, ", ");
    text_address(&line, record->mac);
    text_piece(message, 1, shinglebar_mac_place(answer));
}

/* A record that stays, and why. */
static void text_kept(uint64_t answer, const struct shinglebar_record *record)
{
    switch (shinglebar_kind(answer)) {
    case SHINGLEBAR_WHY_FREE:
        text_put(&line, "free");
        return;
    case SHINGLEBAR_WHY_SPOILT:
        text_put(&line, "stays: spoilt");
        return;
    case SHINGLEBAR_WHY_CONFIGURED:
        text_put(&line, "stays: configured");
        return;
    case SHINGLEBAR_WHY_NICKNAME_NOT_MEANT:
        text_put(&line, "stays: nickname ");
        text_hex(&line, record->nickname, 4);
        break;
    case SHINGLEBAR_WHY_LABEL_NOT_MEANT:
        text_put(&line, "stays: ");
        text_label(&line, record->label_kind, record->label);
        break;
    default:
        text_put(&line, "stays: ");
        text_address(&line, record->mac);
    }
    text_put(&line, " is not meant");
}

static const char *why_words(uint64_t answer)
{
    static const char *const WORDS[] = {"free",  "spoilt", "configured", "nickname not meant", "label not meant",
                                        "MAC not meant", "cleared"};
    return WORDS[shinglebar_kind(answer) - SHINGLEBAR_WHY_FREE];
}

/* The sentence for a slot. */
static void sentence_put(unsigned slot, const uint8_t *bytes, uint64_t answer, const struct message *message)
{
    struct shinglebar_record record = shinglebar_unpack_record(bytes);
    int cleared = shinglebar_kind(answer) == SHINGLEBAR_WHY_CLEARED;
    if (line.json) {
        json_number(&line, "slot", slot);
        json_words(&line, "why", why_words(answer));
        json_open(&line, "record", "{");
        record_put(&line, bytes);
        json_close(&line, "}");
        if (cleared)
            json_cleared(answer, message);
        return;
    }
    text_put(&line, "slot ");
    text_number(&line, slot);
    text_put(&line, ": ");
    if (cleared)
        text_cleared(answer, message, &record);
    else
        text_kept(answer, &record);
}

/* Whether a slot is one that was asked for. */
static int is_asked(const struct options *options, const struct table *table, unsigned slot)
{
    struct shinglebar_record record = table_record(table, slot);
    if (options->has_slot)
        return slot == options->slot;
    if (!record_is_entry(&record) || record.mac != options->audience.mac)
        return 0;
    return !options->has_label || (record.label_kind == options->kind && record.label == options->label);
}

/* Where the frame of a capture stands, in front of its sentences. */
struct place {
    unsigned long number;
    const struct captured *captured;
    const struct frame *frame;
};

/* A line for each slot that was asked for. */
static int tell(const struct options *options, const struct table *table, const struct message *message,
                const struct place *place, struct told *told)
{
    for (unsigned slot = 0; slot < table_slots(table); slot++) {
        if (!is_asked(options, table, slot))
            continue;
        uint64_t answer = shinglebar_why_any(message->ingress, message->payload, message->length, slot, table->bytes,
                                             table->length);
        if (shinglebar_is_refusal(answer))
            return bad_data("refused %u: %s", shinglebar_refusal(answer), shinglebar_refusal_string(answer));
        if (place != NULL) {
            frame_put(&line, place->number, place->captured, place->frame);
            text_put(&line, line.json ? "" : " | ");
        }
        sentence_put(slot, table_slot(table, slot), answer, message);
        line_out(&line);
        told->records++;
        if (shinglebar_kind(answer) == SHINGLEBAR_WHY_CLEARED) {
            told->cleared++;
            told->last = place == NULL ? 0 : place->number;
        }
    }
    return 0;
}

/* One payload, given as digits. A corrupt one, or a slot that is not there, is said by the library. */
static int one(const struct options *options)
{
    static struct table table;
    struct told told = {0, 0, 0, 0};
    struct flush_fault fault;
    const struct message message = {options->ingress, options->digits.bytes, options->digits.length};
    if (table_read(&table, options->table, 0) != 0)
        return 1;
    uint64_t answer = shinglebar_why_any(message.ingress, message.payload, message.length,
                                         options->has_slot ? options->slot : 0, table.bytes, table.length);
    if (answer == SHINGLEBAR_REFUSAL_PAYLOAD && !flush_is_good(message.payload, message.length, &fault))
        return bad_data("refused %u: %s: byte %zu of the payload: %s", shinglebar_refusal(answer),
                        shinglebar_refusal_string(answer), fault.at, fault.rule);
    if (shinglebar_is_refusal(answer))
        return bad_data("refused %u: %s", shinglebar_refusal(answer), shinglebar_refusal_string(answer));
    if (tell(options, &table, &message, NULL, &told) != 0 || output_ready() != 0)
        return 1;
    return told.records > 0 ? 0 : bad_data("no slot of %s has the address", options->table);
}

/* Time passes as for `receive`, and a line tells which records of an address it took. */
static void let_pass(struct receiver *receiver, struct options *own, uint32_t second)
{
    if (receiver->store.aged.known && second <= receiver->store.aged.second)
        return;
    shadow_begin(&receiver->shadow, &receiver->store.table);
    own->quiet = !own->audience.is_one;
    receiver_age(receiver, second);
    own->quiet = 1;
}

static void totals_print(unsigned long frames, const struct told *told)
{
    if (line.json) {
        json_number(&line, "frames", frames);
        json_number(&line, "flushes", told->flushes);
        json_number(&line, "cleared", told->cleared);
        if (told->cleared > 0)
            json_number(&line, "last_cleared_by_frame", told->last);
    } else {
        text_number(&line, frames);
        text_put(&line, " frames, ");
        text_number(&line, told->flushes);
        text_put(&line, " flushes: ");
        text_number(&line, told->cleared);
        text_put(&line, told->cleared > 0 ? " cleared, last by frame " : " cleared");
        if (told->cleared > 0)
            text_number(&line, told->last);
    }
    line_out(&line);
}

/* The frames of a capture, read as `receive` does: before a flush is carried out, each slot that was asked for is told of. */
static int each(struct receiver *receiver, struct capture_reader *reader, struct options *own)
{
    static struct captured captured;
    static struct portion flush;
    struct told told = {0, 0, 0, 0};
    enum capture_step step;
    while ((step = capture_next(reader, &captured)) == CAPTURE_FRAME) {
        if (!own->no_ageing && captured.timed)
            let_pass(receiver, own, captured.seconds);
        if (portion_open(&flush, own, captured.bytes, captured.length)) {
            struct frame frame = frame_read(captured.bytes, captured.length, own->settings.port);
            const struct message message = {flush.ingress, flush.payload, flush.length};
            const struct place place = {reader->number, &captured, &frame};
            told.flushes++;
            if (tell(own, &receiver->store.table, &message, &place, &told) != 0)
                return 1;
        }
        if (receiver_take(receiver, &captured) != 0)
            return 1;
    }
    if (step == CAPTURE_BAD)
        return 1;
    totals_print(reader->number, &told);
    return output_ready() != 0 || step == CAPTURE_CUT || told.records == 0;
}

int why_command(const struct options *options)
{
    static struct receiver receiver;
    static struct options own;
    struct capture_reader reader;
    line.json = options->json;
    if (options->capture == NULL)
        return one(options);
    own = *options;
    own.dry_run = own.quiet = 1;
    int status = receiver_open(&receiver, &own);
    if (status == 0 && own.has_slot && own.slot >= table_slots(&receiver.store.table))
        status = bad_data("%s has %u slots, and --slot says %u", own.table, table_slots(&receiver.store.table),
                          (unsigned)own.slot);
    if (status == 0 && capture_open(&reader, own.capture) == 0) {
        status = each(&receiver, &reader, &own);
        capture_close(&reader);
    } else {
        status = 1;
    }
    receiver_close(&receiver);
    return status;
}
