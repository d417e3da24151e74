/* What a frame is, for the reader of a line only: what is done with it is the library's answer. */
#ifndef FRAME_H
#define FRAME_H

#include <stddef.h>
#include <stdint.h>

#include "capture.h"
#include "text.h"

/* What was found, each part with 1 beside it if it is there. The payload is what follows a channel's header. */
struct frame {
    const char *format;
    size_t length;
    int has_addresses, has_label, has_header, has_type, has_protocol, has_payload;
    uint64_t destination, source, header, type, protocol;
    unsigned kind;
    uint64_t label;
    const uint8_t *payload;
    size_t payload_length;
};

/* Reads a frame as far as it goes, for a port with this address. */
struct frame frame_read(const uint8_t *bytes, size_t length, uint64_t port);

/* The same of a native frame: addresses, an 8100 tag, content. */
struct frame frame_native(const uint8_t *bytes, size_t length);

unsigned frame_ingress(const struct frame *frame);

/* Whether a frame is marked as that of a station on two switches, at a port with this setting: 0 none, 1 the first R bit, 2 the second. */
int frame_is_marked(const struct frame *frame, uint32_t multihomed);

/* Begins a line: the frame's number and time, format, label, inner addresses, nicknames and content as far as it has them. */
void frame_put(struct text *to, unsigned long number, const struct captured *captured, const struct frame *frame);

#endif
