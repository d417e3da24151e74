/* The payload of an Address Flush, for the reader of a line only: what is cleared is the library's to say. */
#ifndef FLUSH_H
#define FLUSH_H

#include <stddef.h>
#include <stdint.h>

#include "text.h"

#define FLUSH_PROTOCOL 0x009

/* The byte of the payload, counted from 0, at which a rule is broken, and the rule. */
struct flush_fault {
    size_t at;
    char rule[120];
};

/* Reads a payload whole: 1 if no rule is broken, else 0 and the first fault. */
int flush_is_good(const uint8_t *payload, size_t length, struct flush_fault *fault);

/* Puts what a good payload means: nicknames, labels and MACs, each list cut to a few with a count of the others. */
void flush_put(struct text *to, unsigned ingress, const uint8_t *payload, size_t length);

#endif
