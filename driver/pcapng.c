#include "pcapng.h"

#include <stdlib.h>
#include <string.h>

#include "link.h"
#include "message.h"

enum block { SECTION = 0x0A0D0D0A, INTERFACE = 1, OLD_PACKET = 2, SIMPLE_PACKET = 3, PACKET = 6 };
enum option { END = 0, RESOLUTION = 9, FCS_LENGTH = 13, OFFSET = 14 };

#define BLOCK_HEADER_BYTES 8
#define ORDER_BYTES 4
#define TRAILER_BYTES 4
#define ORDER 0x1A2B3C4Du
#define VERSION_MAJOR 1
/* The numbers in front of a body: of a section behind its byte order, of a packet, of a simple packet, of an interface. */
#define SECTION_BYTES 12
#define PACKET_BYTES 20
#define SIMPLE_BYTES 4
#define INTERFACE_BYTES 8
#define INTERFACES_MAX 65536
/* A block with the longest frame, and room for its options. */
#define BODY_MAX (CAPTURE_FRAME_MAX + 65536)
#define MICROSECONDS_A_SECOND 1000000
#define NANOSECONDS_A_SECOND 1000000000
/* A resolution finer than this many units a second is read no finer, so that no product passes 64 bits. */
#define UNITS_MAX (UINT64_C(1) << 30)

/* A time stamp counts units from `offset` seconds on. */
struct interface {
    uint32_t link;
    uint32_t snap;
    uint32_t fcs;
    uint64_t units;
    int64_t offset;
};

struct pcapng {
    int big_endian;
    uint32_t count;
    struct interface *interfaces;
    uint32_t length;
    uint8_t body[BODY_MAX];
};

int pcapng_is(const uint8_t *magic)
{
    return capture_number(1, magic, 4) == SECTION;
}

static uint32_t number(const struct pcapng *pcapng, size_t at, int bytes)
{
    return capture_number(pcapng->big_endian, pcapng->body + at, bytes);
}

static uint64_t long_number(const struct pcapng *pcapng, size_t at)
{
    uint64_t first = number(pcapng, at, 4), second = number(pcapng, at + 4, 4);
    return pcapng->big_endian ? first << 32 | second : second << 32 | first;
}

/* Reads the body of a block into the area, or over it as often as it takes where it need not be kept; then the length at its end. */
static enum capture_step read_body(struct capture_reader *reader, uint32_t left, uint32_t total, int kept)
{
    struct pcapng *pcapng = reader->pcapng;
    if (kept && left > BODY_MAX)
        return capture_fault(reader, "a block longer than any frame's", left, BODY_MAX);
    pcapng->length = left;
    while (left > 0) {
        uint32_t part = left > BODY_MAX ? BODY_MAX : left;
        enum capture_step step = capture_take(reader, pcapng->body, part, "the block");
        if (step != CAPTURE_FRAME)
            return step;
        left -= part;
    }
    uint8_t trailer[TRAILER_BYTES];
    enum capture_step step = capture_take(reader, trailer, TRAILER_BYTES, "the block");
    if (step != CAPTURE_FRAME)
        return step;
    uint32_t again = capture_number(pcapng->big_endian, trailer, 4);
    return again == total ? CAPTURE_FRAME : capture_fault(reader, "a block with two lengths", again, total);
}

/* The lengths that a block may have, its body's least being given. */
static enum capture_step check_total(const struct capture_reader *reader, uint32_t total, uint32_t least)
{
    least += BLOCK_HEADER_BYTES + TRAILER_BYTES;
    if (total < least)
        return capture_fault(reader, "a block that is too short", total, least);
    return total % 4 == 0 ? CAPTURE_FRAME : capture_fault(reader, "a block's length is no multiple of 4", total, total / 4 * 4);
}

/* A section's header, of which the type and `length` have been read: its byte order decides what that length is. */
static enum capture_step read_section(struct capture_reader *reader, const uint8_t *length)
{
    struct pcapng *pcapng = reader->pcapng;
    uint8_t order[ORDER_BYTES];
    enum capture_step step = capture_take(reader, order, ORDER_BYTES, "the section's header");
    if (step != CAPTURE_FRAME)
        return step;
    pcapng->big_endian = capture_number(1, order, 4) == ORDER;
    if (!pcapng->big_endian && capture_number(0, order, 4) != ORDER) {
        bad_data("%s, at byte %lld: a section with the byte order %02X %02X %02X %02X", reader->name, reader->at, order[0],
                 order[1], order[2], order[3]);
        return CAPTURE_BAD;
    }
    uint32_t total = capture_number(pcapng->big_endian, length, 4);
    step = check_total(reader, total, ORDER_BYTES + SECTION_BYTES);
    if (step == CAPTURE_FRAME)
        step = read_body(reader, total - BLOCK_HEADER_BYTES - ORDER_BYTES - TRAILER_BYTES, total, 1);
    if (step != CAPTURE_FRAME || number(pcapng, 0, 2) == VERSION_MAJOR)
        return step;
    bad_data("%s has version %u.%u of the pcapng format, not %d.x", reader->name, (unsigned)number(pcapng, 0, 2),
             (unsigned)number(pcapng, 2, 2), VERSION_MAJOR);
    return CAPTURE_BAD;
}

static void take_option(struct pcapng *pcapng, struct interface *interface, uint32_t code, size_t at, uint32_t length)
{
    uint8_t first = length > 0 ? pcapng->body[at] : 0;
    if (code == FCS_LENGTH && length == 1)
        interface->fcs = first;
    if (code == OFFSET && length == 8)
        interface->offset = (int64_t)long_number(pcapng, at);
    if (code != RESOLUTION || length != 1)
        return;
    /* The high bit tells powers of 2 from powers of 10. One that 64 bits do not hold stays 0. */
    interface->units = first < 20 ? 1 : first >= 128 && first < 128 + 64 ? UINT64_C(1) << (first & 63) : 0;
    for (int i = 0; i < first && first < 20; i++)
        interface->units *= 10;
}

static enum capture_step take_interface(struct capture_reader *reader)
{
    struct pcapng *pcapng = reader->pcapng;
    struct interface found = {number(pcapng, 0, 2), number(pcapng, 4, 4), 0, MICROSECONDS_A_SECOND, 0};
    size_t at = INTERFACE_BYTES;
    while (pcapng->length - at >= 4) {
        uint32_t code = number(pcapng, at, 2), length = number(pcapng, at + 2, 2);
        at += 4;
        if (code == END)
            break;
        if (length > pcapng->length - at)
            return capture_fault(reader, "an option that is cut", pcapng->length - at, length);
        take_option(pcapng, &found, code, at, length);
        at += (length + 3) / 4 * 4;
        if (at > pcapng->length)
            break;
    }
    struct interface *more = pcapng->count == INTERFACES_MAX
                                 ? NULL
                                 : realloc(pcapng->interfaces, (pcapng->count + 1) * sizeof *more);
    if (more == NULL)
        return capture_fault(reader, "too many interfaces", pcapng->count, INTERFACES_MAX);
    pcapng->interfaces = more;
    pcapng->interfaces[pcapng->count++] = found;
    return CAPTURE_FRAME;
}

/* The interface that a packet names, if its frames can be used. */
static const struct interface *find_interface(const struct capture_reader *reader, uint32_t index)
{
    const struct pcapng *pcapng = reader->pcapng;
    const char *name = reader->name;
    unsigned long record = reader->number + 1;
    if (index >= pcapng->count)
        return bad_data("%s, record %lu: its interface is %u, and there are %u", name, record, (unsigned)index,
                        (unsigned)pcapng->count), NULL;
    const struct interface *found = &pcapng->interfaces[index];
    if (found->link != LINK_ETHERNET || found->fcs != 0)
        return bad_data("%s, record %lu: interface %u has link type %u (%s), not %d (%s)", name, record, (unsigned)index,
                        (unsigned)found->link, link_name(found->link | (found->fcs != 0) << 16), LINK_ETHERNET,
                        link_name(LINK_ETHERNET)), NULL;
    if (found->units == 0)
        return bad_data("%s, record %lu: interface %u has a time resolution that is too fine", name, record,
                        (unsigned)index), NULL;
    return found;
}

static enum capture_step take_time(const struct capture_reader *reader, const struct interface *interface, uint64_t units,
                                   struct captured *frame)
{
    uint64_t coarse = interface->units > UNITS_MAX ? interface->units / NANOSECONDS_A_SECOND : 1;
    uint64_t rest = units % interface->units / coarse;
    int64_t seconds = (int64_t)(units / interface->units) + interface->offset;
    if (seconds < 0 || seconds > UINT32_MAX) {
        bad_data("%s, record %lu: a time stamp outside the years 1970 to 2106", reader->name, reader->number + 1);
        return CAPTURE_BAD;
    }
    uint64_t nanoseconds = rest * NANOSECONDS_A_SECOND / (interface->units / coarse);
    frame->timed = 1;
    frame->seconds = (uint32_t)seconds;
    frame->fraction = (uint32_t)(nanoseconds < NANOSECONDS_A_SECOND ? nanoseconds : NANOSECONDS_A_SECOND - 1);
    return CAPTURE_FRAME;
}

static enum capture_step take_frame(const struct capture_reader *reader, size_t at, uint32_t held, uint32_t original,
                                    struct captured *frame)
{
    const struct pcapng *pcapng = reader->pcapng;
    enum capture_step step = capture_check(reader, held, original);
    if (step != CAPTURE_FRAME)
        return step;
    if (held > pcapng->length - at)
        return capture_fault(reader, "a frame longer than its block", held, (unsigned long)(pcapng->length - at));
    frame->digits = 9;
    frame->length = held;
    memcpy(frame->bytes, pcapng->body + at, held);
    return CAPTURE_FRAME;
}

/* Interface, time in two halves, both lengths, the frame. */
static enum capture_step take_packet(const struct capture_reader *reader, int index_bytes, struct captured *frame)
{
    const struct pcapng *pcapng = reader->pcapng;
    const struct interface *interface = find_interface(reader, number(pcapng, 0, index_bytes));
    if (interface == NULL)
        return CAPTURE_BAD;
    uint64_t units = (uint64_t)number(pcapng, 4, 4) << 32 | number(pcapng, 8, 4);
    enum capture_step step = take_time(reader, interface, units, frame);
    return step != CAPTURE_FRAME
               ? step
               : take_frame(reader, PACKET_BYTES, number(pcapng, 12, 4), number(pcapng, 16, 4), frame);
}

/* Only the original length, of interface 0; the frame keeps the time of the one before it. */
static enum capture_step take_simple(const struct capture_reader *reader, struct captured *frame)
{
    const struct pcapng *pcapng = reader->pcapng;
    const struct interface *interface = find_interface(reader, 0);
    if (interface == NULL)
        return CAPTURE_BAD;
    frame->timed = 0;
    uint32_t original = number(pcapng, 0, 4);
    uint32_t held = interface->snap != 0 && interface->snap < original ? interface->snap : original;
    return take_frame(reader, SIMPLE_BYTES, held, original, frame);
}

/* A block that is no section: `done` where it held a frame. */
static enum capture_step read_block(struct capture_reader *reader, uint32_t type, uint32_t total,
                                    struct captured *frame, int *done)
{
    int packet = type == PACKET || type == OLD_PACKET, known = packet || type == SIMPLE_PACKET || type == INTERFACE;
    enum capture_step step = check_total(reader, total, packet ? PACKET_BYTES
                                                        : type == SIMPLE_PACKET ? SIMPLE_BYTES
                                                        : type == INTERFACE     ? INTERFACE_BYTES
                                                                                : 0);
    if (step == CAPTURE_FRAME)
        step = read_body(reader, total - BLOCK_HEADER_BYTES - TRAILER_BYTES, total, known);
    *done = packet || type == SIMPLE_PACKET;
    if (step != CAPTURE_FRAME || !known)
        return step;
    if (type == INTERFACE)
        return take_interface(reader);
    return packet ? take_packet(reader, type == PACKET ? 4 : 2, frame) : take_simple(reader, frame);
}

enum capture_step pcapng_next(struct capture_reader *reader, struct captured *frame)
{
    struct pcapng *pcapng = reader->pcapng;
    uint8_t header[BLOCK_HEADER_BYTES];
    int done = 0;
    while (!done) {
        enum capture_step step = capture_begin(reader, header, BLOCK_HEADER_BYTES, "the block's header");
        if (step != CAPTURE_FRAME)
            return step;
        uint32_t type = capture_number(pcapng->big_endian, header, 4);
        if (type == SECTION) {
            pcapng->count = 0;
            step = read_section(reader, header + 4);
        } else {
            step = read_block(reader, type, capture_number(pcapng->big_endian, header + 4, 4), frame, &done);
        }
        if (step != CAPTURE_FRAME)
            return step;
    }
    return CAPTURE_FRAME;
}

int pcapng_open(struct capture_reader *reader)
{
    uint8_t length[4];
    reader->pcapng = calloc(1, sizeof *reader->pcapng);
    if (reader->pcapng == NULL)
        return bad_data("%s cannot be read: no memory", reader->name);
    if (capture_take(reader, length, sizeof length, "the section's header") != CAPTURE_FRAME
        || read_section(reader, length) != CAPTURE_FRAME)
        return 1;
    reader->form.big_endian = reader->pcapng->big_endian;
    reader->form.nanoseconds = 1;
    return 0;
}

void pcapng_close(struct capture_reader *reader)
{
    if (reader->pcapng != NULL)
        free(reader->pcapng->interfaces);
    free(reader->pcapng);
    reader->pcapng = NULL;
}
