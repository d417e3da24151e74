#include "pcap.h"

#include <string.h>

#include "link.h"
#include "message.h"

#define MAGIC_BYTES 4
#define RECORD_HEADER_BYTES 16
#define VERSION_MAJOR 2
#define VERSION_MINOR 4

static const uint8_t MICROSECONDS[MAGIC_BYTES] = {0xA1, 0xB2, 0xC3, 0xD4};
static const uint8_t NANOSECONDS[MAGIC_BYTES] = {0xA1, 0xB2, 0x3C, 0x4D};

static void put(struct capture_form form, uint8_t *at, int bytes, uint32_t value)
{
    for (int i = 0; i < bytes; i++)
        at[form.big_endian ? bytes - 1 - i : i] = (uint8_t)(value >> (8 * i));
}

int pcap_is(const uint8_t *magic, struct capture_form *form)
{
    uint8_t turned[MAGIC_BYTES] = {magic[3], magic[2], magic[1], magic[0]};
    form->big_endian = memcmp(magic, MICROSECONDS, 4) == 0 || memcmp(magic, NANOSECONDS, 4) == 0;
    if (!form->big_endian)
        magic = turned;
    form->nanoseconds = memcmp(magic, NANOSECONDS, 4) == 0;
    return form->nanoseconds || memcmp(magic, MICROSECONDS, 4) == 0;
}

int pcap_open(struct capture_reader *reader)
{
    uint8_t header[PCAP_HEADER_BYTES];
    int big_endian = reader->form.big_endian;
    const char *name = reader->name;
    size_t got = MAGIC_BYTES + fread(header + MAGIC_BYTES, 1, PCAP_HEADER_BYTES - MAGIC_BYTES, reader->file);
    if (got < PCAP_HEADER_BYTES)
        return bad_data("%s ends inside its header: %zu of %d bytes", name, got, PCAP_HEADER_BYTES);
    uint32_t major = capture_number(big_endian, header + 4, 2), minor = capture_number(big_endian, header + 6, 2);
    if (major != VERSION_MAJOR)
        return bad_data("%s has version %u.%u of the pcap format, not %d.x", name, (unsigned)major, (unsigned)minor,
                        VERSION_MAJOR);
    uint32_t link = capture_number(big_endian, header + 20, 4);
    if (link != LINK_ETHERNET)
        return bad_data("%s has link type %u (%s), not %d (%s)", name, (unsigned)(link & 0xFFFF), link_name(link),
                        LINK_ETHERNET, link_name(LINK_ETHERNET));
    reader->taken = PCAP_HEADER_BYTES;
    return 0;
}

enum capture_step pcap_next(struct capture_reader *reader, struct captured *frame)
{
    uint8_t header[RECORD_HEADER_BYTES];
    int big_endian = reader->form.big_endian;
    enum capture_step step = capture_begin(reader, header, RECORD_HEADER_BYTES, "the record's header");
    if (step != CAPTURE_FRAME)
        return step;
    frame->seconds = capture_number(big_endian, header, 4);
    frame->fraction = capture_number(big_endian, header + 4, 4);
    frame->digits = reader->form.nanoseconds ? 9 : 6;
    frame->timed = 1;
    frame->length = capture_number(big_endian, header + 8, 4);
    step = capture_check(reader, (uint32_t)frame->length, capture_number(big_endian, header + 12, 4));
    return step != CAPTURE_FRAME ? step : capture_take(reader, frame->bytes, frame->length, "the frame");
}

int capture_create(struct whole *out, const char *name, struct capture_form form)
{
    uint8_t header[PCAP_HEADER_BYTES] = {0};
    if (name == NULL)
        return 0;
    const uint8_t *magic = form.nanoseconds ? NANOSECONDS : MICROSECONDS;
    for (int i = 0; i < MAGIC_BYTES; i++)
        header[i] = magic[form.big_endian ? i : MAGIC_BYTES - 1 - i];
    put(form, header + 4, 2, VERSION_MAJOR);
    put(form, header + 6, 2, VERSION_MINOR);
    put(form, header + 16, 4, CAPTURE_FRAME_MAX);
    put(form, header + 20, 4, LINK_ETHERNET);
    return whole_begin(out, name) != 0 || whole_write(out, header, PCAP_HEADER_BYTES) != 0;
}

int capture_add(struct whole *out, struct capture_form form, const struct captured *stamp, const uint8_t *bytes,
                size_t length)
{
    uint8_t header[RECORD_HEADER_BYTES];
    if (out->file == NULL)
        return 0;
    put(form, header, 4, stamp->seconds);
    put(form, header + 4, 4, stamp->fraction);
    put(form, header + 8, 4, (uint32_t)length);
    put(form, header + 12, 4, (uint32_t)length);
    return whole_write(out, header, RECORD_HEADER_BYTES) != 0 || whole_write(out, bytes, length) != 0;
}
