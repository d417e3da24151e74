#include "frame.h"

#include "shinglebar.h"

#define TRILL 0x22F3u
#define C_TAG 0x8100u
#define FGL_TAG 0x893Bu
#define CHANNEL 0x8946u
#define ALL_RBRIDGES UINT64_C(0x0180C2000040)

struct cursor {
    const uint8_t *bytes;
    size_t left;
};

/* Takes a number of some bytes: 1, or 0 if the frame ends before. */
static int take(struct cursor *at, size_t bytes, uint64_t *value)
{
    if (at->left < bytes)
        return 0;
    *value = 0;
    for (size_t i = 0; i < bytes; i++)
        *value = *value << 8 | at->bytes[i];
    at->bytes += bytes;
    at->left -= bytes;
    return 1;
}

static int take_label(struct cursor *at, struct frame *seen)
{
    uint64_t type, high, low;
    if (!take(at, 2, &type) || !take(at, 2, &high))
        return 0;
    seen->kind = type == C_TAG ? SHINGLEBAR_LABEL_VLAN : SHINGLEBAR_LABEL_FINE_GRAINED;
    seen->label = high & 0xFFF;
    if (type == FGL_TAG && take(at, 2, &type) && type == FGL_TAG && take(at, 2, &low))
        seen->label = seen->label << 12 | (low & 0xFFF);
    else if (type != C_TAG || seen->kind != SHINGLEBAR_LABEL_VLAN)
        return 0;
    return seen->has_label = 1;
}

static int take_addresses(struct cursor *at, struct frame *seen)
{
    return seen->has_addresses = take(at, 6, &seen->destination) && take(at, 6, &seen->source);
}

static int take_header(struct cursor *at, struct frame *seen)
{
    seen->has_header = take(at, 6, &seen->header);
    size_t options = (size_t)(seen->header >> 38 & 0x1F) * 4;
    if (!seen->has_header || at->left < options)
        return 0;
    at->bytes += options;
    at->left -= options;
    return 1;
}

static void take_content(struct cursor *at, struct frame *seen)
{
    seen->has_type = take(at, 2, &seen->type);
    seen->has_protocol = seen->has_type && seen->type == CHANNEL && take(at, 2, &seen->protocol);
    uint64_t flags;
    seen->has_payload = seen->has_protocol && take(at, 2, &flags);
    seen->payload = at->bytes;
    seen->payload_length = at->left;
}

/* Outer addresses, an optional tag, 22F3, header, inner addresses, label, content. */
static int see_general(struct cursor at, struct frame *seen)
{
    uint64_t skipped, type;
    if (!take(&at, 6, &skipped) || !take(&at, 6, &skipped) || !take(&at, 2, &type))
        return 0;
    if (type == C_TAG && (!take(&at, 2, &skipped) || !take(&at, 2, &type)))
        return 0;
    if (type != TRILL)
        return 0;
    if (take_header(&at, seen) && take_addresses(&at, seen) && take_label(&at, seen))
        take_content(&at, seen);
    return 1;
}

/* Inner addresses, label, 22F3, header, content. */
static int see_compact(struct cursor at, struct frame *seen)
{
    uint64_t type;
    if (!take_addresses(&at, seen) || !take_label(&at, seen) || !take(&at, 2, &type) || type != TRILL)
        return 0;
    if (take_header(&at, seen))
        take_content(&at, seen);
    return 1;
}

struct frame frame_read(const uint8_t *bytes, size_t length, uint64_t port)
{
    struct frame nothing = {0};
    struct cursor at = {bytes, length}, front = at;
    uint64_t destination = 0;
    nothing.length = length;
    struct frame seen = nothing;
    take(&front, 6, &destination);
    if (destination == port || destination == ALL_RBRIDGES) {
        seen.format = "General";
        if (see_general(at, &seen))
            return seen;
    } else if (destination >> 4 != ALL_RBRIDGES >> 4) {
        seen.format = "Compact";
        if (see_compact(at, &seen))
            return seen;
    }
    seen = nothing;
    seen.format = "neither";
    if (take_addresses(&at, &seen))
        take_content(&at, &seen);
    return seen;
}

struct frame frame_native(const uint8_t *bytes, size_t length)
{
    struct frame seen = {0};
    struct cursor at = {bytes, length}, tag;
    uint64_t type, number;
    seen.format = "native";
    seen.length = length;
    if (!take_addresses(&at, &seen))
        return seen;
    tag = at;
    if (take(&tag, 2, &type) && type == C_TAG && take(&tag, 2, &number)) {
        seen.has_label = 1;
        seen.kind = SHINGLEBAR_LABEL_VLAN;
        seen.label = number & 0xFFF;
        at = tag;
    }
    take_content(&at, &seen);
    return seen;
}

unsigned frame_ingress(const struct frame *frame)
{
    return (unsigned)(frame->header & 0xFFFF);
}

int frame_is_marked(const struct frame *frame, uint32_t multihomed)
{
    return (multihomed == 1 && frame->header >> 45 & 1) || (multihomed == 2 && frame->header >> 44 & 1);
}

static unsigned egress(const struct frame *frame)
{
    return (unsigned)(frame->header >> 16 & 0xFFFF);
}

static int is_multicast(const struct frame *frame)
{
    return (int)(frame->header >> 43 & 1);
}

static void put_json(struct text *to, unsigned long number, const struct captured *captured, const struct frame *frame)
{
    json_number(to, "frame", number);
    json_time(to, captured->seconds, captured->fraction, captured->digits);
    json_words(to, "format", frame->format);
    json_number(to, "bytes", frame->length);
    if (frame->has_label)
        json_label(to, frame->kind, (uint32_t)frame->label);
    if (frame->has_addresses) {
        json_address(to, "source", frame->source);
        json_address(to, "destination", frame->destination);
    }
    if (frame->has_header) {
        json_hex(to, "ingress", frame_ingress(frame), 4);
        json_hex(to, "egress", egress(frame), 4);
        json_truth(to, "multicast", is_multicast(frame));
    }
    if (frame->has_protocol)
        json_hex(to, "channel", frame->protocol & 0xFFF, 3);
    else if (frame->has_type)
        json_hex(to, "type", frame->type, 4);
}

static void put_words(struct text *to, unsigned long number, const struct captured *captured, const struct frame *frame)
{
    text_put(to, "frame ");
    text_number(to, number);
    text_put(to, ": ");
    text_time(to, captured->seconds, captured->fraction, captured->digits);
    text_put(to, " ");
    text_put(to, frame->format);
    text_put(to, ", ");
    text_number(to, frame->length);
    text_put(to, " bytes");
    if (frame->has_label) {
        text_put(to, ", ");
        text_label(to, frame->kind, (uint32_t)frame->label);
    }
    if (frame->has_addresses) {
        text_put(to, ", ");
        text_address(to, frame->source);
        text_put(to, " to ");
        text_address(to, frame->destination);
    }
    if (frame->has_header) {
        text_put(to, ", ");
        text_hex(to, frame_ingress(frame), 4);
        text_put(to, " to ");
        text_hex(to, egress(frame), 4);
        text_put(to, is_multicast(frame) ? " (M)" : "");
    }
    if (frame->has_protocol || frame->has_type) {
        text_put(to, frame->has_protocol ? ", channel " : ", type ");
        text_hex(to, frame->has_protocol ? frame->protocol & 0xFFF : frame->type, frame->has_protocol ? 3 : 4);
    }
}

void frame_put(struct text *to, unsigned long number, const struct captured *captured, const struct frame *frame)
{
    if (to->json)
        put_json(to, number, captured, frame);
    else
        put_words(to, number, captured, frame);
}
