/* pcapng: sections in both byte orders, several interfaces with time resolutions of their own; blocks that are not known are skipped. */
#ifndef PCAPNG_H
#define PCAPNG_H

#include "capture.h"

/* Whether a capture begins so. */
int pcapng_is(const uint8_t *magic);

/* Reads the first section's header behind its first four bytes: 0, or 1 and said. */
int pcapng_open(struct capture_reader *reader);
enum capture_step pcapng_next(struct capture_reader *reader, struct captured *frame);
void pcapng_close(struct capture_reader *reader);

#endif
