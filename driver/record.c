#include "record.h"

static const char *const STATES[] = {"free", "learned", "configured", "spoilt"};

int record_is_entry(const struct shinglebar_record *record)
{
    return record->state == SHINGLEBAR_RECORD_LEARNED || record->state == SHINGLEBAR_RECORD_CONFIGURED;
}

int record_holds(const struct shinglebar_record *record, unsigned kind, uint32_t label, uint64_t mac)
{
    return record_is_entry(record) && record->label_kind == kind && record->label == label && record->mac == mac;
}

static void json_put(struct text *to, const uint8_t *slot)
{
    struct shinglebar_record record = shinglebar_unpack_record(slot);
    json_words(to, "state", STATES[record.state]);
    if (record.state == SHINGLEBAR_RECORD_SPOILT) {
        json_quote(to, "record");
        for (int i = 0; i < SHINGLEBAR_RECORD_LENGTH; i++)
            text_hex(to, slot[i], 2);
        json_unquote(to);
    } else if (record.state != SHINGLEBAR_RECORD_FREE) {
        json_label(to, record.label_kind, record.label);
        json_address(to, "mac", record.mac);
        json_hex(to, "nickname", record.nickname, 4);
        json_number(to, "confidence", record.confidence);
        json_number(to, "seconds", record.seconds);
        json_truth(to, "multihomed", record.multihomed != 0);
    }
}

/* Label, address and nickname: what tells where an address is. */
static void place_put(struct text *to, const struct shinglebar_record *record)
{
    text_label(to, record->label_kind, record->label);
    text_put(to, " ");
    text_address(to, record->mac);
    text_put(to, " behind ");
    text_hex(to, record->nickname, 4);
}

void record_put(struct text *to, const uint8_t *slot)
{
    if (to->json) {
        json_put(to, slot);
        return;
    }
    struct shinglebar_record record = shinglebar_unpack_record(slot);
    text_put(to, STATES[record.state]);
    if (record.state == SHINGLEBAR_RECORD_SPOILT) {
        for (int i = 0; i < SHINGLEBAR_RECORD_LENGTH; i++) {
            text_put(to, " ");
            text_hex(to, slot[i], 2);
        }
    } else if (record.state != SHINGLEBAR_RECORD_FREE) {
        text_put(to, " ");
        place_put(to, &record);
        text_put(to, ", confidence ");
        text_number(to, record.confidence);
        text_put(to, ", ");
        text_number(to, record.seconds);
        text_put(to, record.multihomed ? " s, multihomed" : " s");
    }
}

/* One pair of label and address before and after: only what differs is told twice. */
static void entry_change_put(struct text *to, const struct shinglebar_record *before,
                             const struct shinglebar_record *after)
{
    if (before->state != after->state) {
        text_put(to, STATES[before->state]);
        text_put(to, " -> ");
        text_put(to, STATES[after->state]);
        text_put(to, " ");
    }
    place_put(to, before);
    if (before->nickname != after->nickname) {
        text_put(to, " -> ");
        text_hex(to, after->nickname, 4);
    }
    if (before->confidence != after->confidence) {
        text_put(to, ", confidence ");
        text_number(to, before->confidence);
        text_put(to, " -> ");
        text_number(to, after->confidence);
    }
    if (before->seconds != after->seconds) {
        text_put(to, ", ");
        text_number(to, before->seconds);
        text_put(to, " -> ");
        text_number(to, after->seconds);
        text_put(to, " s");
    }
    if (before->multihomed != after->multihomed)
        text_put(to, after->multihomed ? ", now multihomed" : ", no longer multihomed");
    else if (after->multihomed)
        text_put(to, ", multihomed");
}

void record_change_put(struct text *to, const uint8_t *before, const uint8_t *after)
{
    struct shinglebar_record was = shinglebar_unpack_record(before), is = shinglebar_unpack_record(after);
    if (to->json) {
        json_open(to, "before", "{");
        json_put(to, before);
        json_close(to, "}");
        json_open(to, "after", "{");
        json_put(to, after);
        json_close(to, "}");
    } else if (record_is_entry(&was) && record_holds(&is, was.label_kind, was.label, was.mac)) {
        entry_change_put(to, &was, &is);
    } else if (record_is_entry(&was) && is.state == SHINGLEBAR_RECORD_FREE) {
        place_put(to, &was);
        text_put(to, " -> free");
    } else {
        record_put(to, before);
        text_put(to, " -> ");
        record_put(to, after);
    }
}
