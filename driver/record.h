/* A record of the address table in words. The header takes it apart. */
#ifndef RECORD_H
#define RECORD_H

#include <stdint.h>

#include "shinglebar.h"
#include "text.h"

/* Learned or configured; and that with this label and address. */
int record_is_entry(const struct shinglebar_record *record);
int record_holds(const struct shinglebar_record *record, unsigned kind, uint32_t label, uint64_t mac);

/* What the bytes of a slot hold, and how some became others: in words, or as the values of an object that is open. */
void record_put(struct text *to, const uint8_t *slot);
void record_change_put(struct text *to, const uint8_t *before, const uint8_t *after);

#endif
