#include "shadow.h"

#include <string.h>

/* Slots that are compared at once. */
#define BLOCK_SLOTS 64

static int differs(const struct shadow *shadow, const struct table *now, unsigned slot, unsigned slots)
{
    return memcmp(table_slot(&shadow->table, slot), table_slot(now, slot), (size_t)slots * SHINGLEBAR_RECORD_LENGTH) != 0;
}

static void copy(struct shadow *shadow, const struct table *now)
{
    shadow->table.length = now->length;
    memcpy(shadow->table.bytes, now->bytes, now->length);
}

static uint16_t *guess_of(struct shadow *shadow, unsigned kind, uint32_t label, uint64_t mac)
{
    uint64_t mixed = (mac ^ (uint64_t)label << 24 ^ kind) * UINT64_C(0x9E3779B97F4A7C15);
    return &shadow->guess[mixed >> 32 & (SHADOW_GUESSES - 1)];
}

/* Whether the pair of a slot stands in a lower one; the guess is then this slot. */
static int stands_lower(struct shadow *shadow, const struct table *now, unsigned slot)
{
    struct shinglebar_record record = table_record(now, slot);
    if (!record_is_entry(&record))
        return 0;
    uint16_t *guess = guess_of(shadow, record.label_kind, record.label, record.mac);
    struct shinglebar_record other = table_record(now, *guess);
    int taken = *guess < slot && record_is_entry(&other) && guess_of(shadow, other.label_kind, other.label, other.mac) == guess;
    int lower = taken && (record_holds(&other, record.label_kind, record.label, record.mac)
                          || table_lowest(now, record.label_kind, record.label, record.mac) < (int)slot);
    *guess = (uint16_t)slot;
    return lower;
}

void shadow_begin(struct shadow *shadow, const struct table *now)
{
    copy(shadow, now);
    for (unsigned slot = 0; slot < table_slots(now); slot++)
        shadow->several |= stands_lower(shadow, now, slot);
}

/* A learned record that has the frame's nickname and mark is what refreshing it left. */
int shadow_judged(struct shadow *shadow, const struct table *now, const struct home *home, int refreshed)
{
    uint16_t *guess = guess_of(shadow, home->kind, home->label, home->mac);
    if (refreshed && *guess < table_slots(now)) {
        struct shinglebar_record record = table_record(now, *guess);
        if (record.state == SHINGLEBAR_RECORD_LEARNED && record_holds(&record, home->kind, home->label, home->mac)
            && record.nickname == home->nickname && (record.multihomed != 0) == (home->marked != 0))
            return *guess;
    }
    int slot = table_judged(now, home);
    if (slot >= 0)
        *guess = (uint16_t)slot;
    return slot;
}

struct change change_make(struct table *table, unsigned slot, const uint8_t *bytes)
{
    struct change change = {.slot = slot};
    memcpy(change.before, table_slot(table, slot), SHINGLEBAR_RECORD_LENGTH);
    memcpy(change.after, bytes, SHINGLEBAR_RECORD_LENGTH);
    memcpy(table->bytes + (size_t)slot * SHINGLEBAR_RECORD_LENGTH, bytes, SHINGLEBAR_RECORD_LENGTH);
    return change;
}

static void add_slot(struct shadow *shadow, const struct table *now, unsigned slot, const struct audience *audience,
                     struct changes *changes)
{
    if (!differs(shadow, now, slot, 1))
        return;
    struct shinglebar_record was = table_record(&shadow->table, slot), is = table_record(now, slot);
    struct change change = change_make(&shadow->table, slot, table_slot(now, slot));
    if (record_is_entry(&is))
        *guess_of(shadow, is.label_kind, is.label, is.mac) = (uint16_t)slot;
    changes->count++;
    if (!concerns(audience, &was) && !concerns(audience, &is))
        return;
    if (changes->concerning < CHANGES_NAMED)
        changes->list[changes->concerning] = change;
    changes->concerning++;
}

/* A pair that stands once is refreshed where it stands. */
void shadow_learned(struct shadow *shadow, const struct table *now, const struct home *home, int refreshed,
                    const struct audience *audience, struct changes *changes)
{
    int slot = refreshed && !shadow->several ? shadow_judged(shadow, now, home, refreshed) : -1;
    if (slot >= 0) {
        add_slot(shadow, now, (unsigned)slot, audience, changes);
        return;
    }
    shadow->several |= home->marked;
    shadow_all(shadow, now, audience, changes);
}

void shadow_all(struct shadow *shadow, const struct table *now, const struct audience *audience, struct changes *changes)
{
    unsigned slots = table_slots(now);
    for (unsigned block = 0; block < slots; block += BLOCK_SLOTS) {
        unsigned end = slots - block < BLOCK_SLOTS ? slots : block + BLOCK_SLOTS;
        if (!differs(shadow, now, block, end - block))
            continue;
        for (unsigned slot = block; slot < end; slot++)
            add_slot(shadow, now, slot, audience, changes);
    }
}

void shadow_freed(struct shadow *shadow, const struct table *now, const struct audience *audience,
                  struct changes *changes)
{
    for (unsigned slot = 0; slot < table_slots(now); slot++)
        if (table_slot(&shadow->table, slot)[0] != 0 && table_slot(now, slot)[0] == 0)
            add_slot(shadow, now, slot, audience, changes);
    copy(shadow, now);
}

void change_put(struct text *to, const struct change *change)
{
    if (to->json) {
        json_number(to, "slot", change->slot);
    } else {
        text_put(to, "slot ");
        text_number(to, change->slot);
        text_put(to, ": ");
    }
    record_change_put(to, change->before, change->after);
}

void changes_put(struct text *to, const struct changes *changes)
{
    unsigned named = changes->concerning < CHANGES_NAMED ? changes->concerning : CHANGES_NAMED;
    if (to->json)
        json_open(to, "changes", "[");
    for (unsigned i = 0; i < named; i++) {
        if (to->json)
            json_open(to, NULL, "{");
        else
            text_put(to, i == 0 ? "" : "; ");
        change_put(to, &changes->list[i]);
        if (to->json)
            json_close(to, "}");
    }
    if (to->json) {
        json_close(to, "]");
        json_number(to, "more_changes", changes->count - named);
    } else if (changes->count > named) {
        text_put(to, named == 0 ? "" : "; and ");
        text_number(to, changes->count - named);
        text_put(to, named == 0 ? " other slots" : " more");
    }
}
