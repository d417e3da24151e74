/* What the library answered to a frame, in words. */
#ifndef ANSWER_H
#define ANSWER_H

#include "frame.h"
#include "text.h"

/* Puts the answer; of a flush also what it means, of a corrupt one the byte and the rule. */
void answer_put(struct text *to, uint64_t answer, const struct frame *frame);

/* Puts a refusal's number and words, behind other words. */
void refusal_put(struct text *to, const char *before, uint64_t answer);

#endif
