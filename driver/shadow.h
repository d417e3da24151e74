/* A copy of the table as it was before a call, and what the call changed. */
#ifndef SHADOW_H
#define SHADOW_H

#include "table.h"

/* How many changed slots a line names. */
#define CHANGES_NAMED 8
/* Where pairs were found last, by a hash: more places than slots, so that most pairs have one of their own. */
#define SHADOW_GUESSES 16384

struct change {
    unsigned slot;
    uint8_t before[SHINGLEBAR_RECORD_LENGTH], after[SHINGLEBAR_RECORD_LENGTH];
};

/* The slots that changed, how many of them concern the audience, and the first of those. */
struct changes {
    unsigned count;
    unsigned concerning;
    struct change list[CHANGES_NAMED];
};

/* `several` tells whether a pair may stand in several slots: then one frame can change many. */
struct shadow {
    struct table table;
    int several;
    uint16_t guess[SHADOW_GUESSES];
};

/* Puts the bytes of a record into a slot, and tells what that changed. */
struct change change_make(struct table *table, unsigned slot, const uint8_t *bytes);

/* Makes the copy, of a shadow that is all zero. */
void shadow_begin(struct shadow *shadow, const struct table *now);

/* The slot that a frame was judged against, in the table after it: where the frame was refreshed by a guess that the bytes confirm. -1 if
 * there is none. */
int shadow_judged(struct shadow *shadow, const struct table *now, const struct home *home, int refreshed);

/* Adds what learning changed, or all that changed, or the slots that became free; the copy follows. */
void shadow_learned(struct shadow *shadow, const struct table *now, const struct home *home, int refreshed,
                    const struct audience *audience, struct changes *changes);
void shadow_all(struct shadow *shadow, const struct table *now, const struct audience *audience,
                struct changes *changes);
void shadow_freed(struct shadow *shadow, const struct table *now, const struct audience *audience,
                  struct changes *changes);

/* Puts one change, and the changes named, with a count of the others. */
void change_put(struct text *to, const struct change *change);
void changes_put(struct text *to, const struct changes *changes);

#endif
