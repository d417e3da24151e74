/* Classic pcap: both byte orders, microseconds or nanoseconds. */
#ifndef PCAP_H
#define PCAP_H

#include "capture.h"

#define PCAP_HEADER_BYTES 24

/* Whether a capture begins so, and the form that it tells. */
int pcap_is(const uint8_t *magic, struct capture_form *form);

/* Reads the header behind the first four bytes: 0, or 1 and said. */
int pcap_open(struct capture_reader *reader);
enum capture_step pcap_next(struct capture_reader *reader, struct captured *frame);

#endif
