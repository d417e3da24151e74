#define _POSIX_C_SOURCE 200809L
#include "capture.h"

#include <errno.h>
#include <string.h>
#include <sys/stat.h>

#include "message.h"
#include "path.h"
#include "pcap.h"
#include "pcapng.h"
#include "process.h"

#define MAGIC_BYTES 4

uint32_t capture_number(int big_endian, const uint8_t *at, int bytes)
{
    uint32_t value = 0;
    for (int i = 0; i < bytes; i++)
        value = value << 8 | at[big_endian ? i : bytes - 1 - i];
    return value;
}

enum capture_step capture_fault(const struct capture_reader *reader, const char *what, unsigned long has,
                                unsigned long wants)
{
    bad_data("%s, record %lu, at byte %lld: %s: %lu of %lu bytes", reader->name, reader->number + 1, reader->at, what,
             has, wants);
    return CAPTURE_BAD;
}

/* Reads bytes: FRAME, or END with what there is in `got`, or BAD. */
static enum capture_step take(struct capture_reader *reader, void *area, size_t length, size_t *got)
{
    *got = fread(area, 1, length, reader->file);
    reader->taken += (long long)*got;
    if (stop_asked()) {
        bad_data("interrupted after %lu frames", reader->number);
        return CAPTURE_BAD;
    }
    if (ferror(reader->file)) {
        bad_data("%s cannot be read: %s", reader->name, strerror(errno));
        return CAPTURE_BAD;
    }
    return *got < length ? CAPTURE_END : CAPTURE_FRAME;
}

static enum capture_step cut(const struct capture_reader *reader, const char *what, size_t has, size_t wants)
{
    char words[80];
    snprintf(words, sizeof words, "the capture ends inside %s", what);
    capture_fault(reader, words, has, wants);
    return CAPTURE_CUT;
}

enum capture_step capture_take(struct capture_reader *reader, void *area, size_t length, const char *what)
{
    size_t got;
    enum capture_step step = take(reader, area, length, &got);
    return step == CAPTURE_END ? cut(reader, what, got, length) : step;
}

enum capture_step capture_begin(struct capture_reader *reader, void *area, size_t length, const char *what)
{
    size_t got;
    reader->at = reader->taken;
    enum capture_step step = take(reader, area, length, &got);
    return step == CAPTURE_END && got > 0 ? cut(reader, what, got, length) : step;
}

enum capture_step capture_check(const struct capture_reader *reader, uint32_t held, uint32_t original)
{
    if (held > CAPTURE_FRAME_MAX)
        return capture_fault(reader, "longer than any frame", held, CAPTURE_FRAME_MAX);
    /* A cut frame must not be taken for a whole one: a flush that is cut can read as another flush. */
    if (held < original)
        return capture_fault(reader, "holds only a part of its frame (captured with a short snap length?)", held,
                             original);
    if (held > original)
        return capture_fault(reader, "holds more than its frame", held, original);
    return CAPTURE_FRAME;
}

/* Reads the first four bytes, and the header of the format that they tell. */
static int read_header(struct capture_reader *reader)
{
    uint8_t magic[MAGIC_BYTES];
    size_t got;
    enum capture_step step = take(reader, magic, MAGIC_BYTES, &got);
    if (step == CAPTURE_BAD)
        return 1;
    if (step == CAPTURE_END)
        return bad_data("%s ends inside its header: %zu of %d bytes", reader->name, got, PCAP_HEADER_BYTES);
    if (pcapng_is(magic))
        return pcapng_open(reader);
    if (!pcap_is(magic, &reader->form))
        return bad_data("%s is no pcap or pcapng capture: it begins %02X %02X %02X %02X", reader->name, magic[0],
                        magic[1], magic[2], magic[3]);
    return pcap_open(reader);
}

int capture_open(struct capture_reader *reader, const char *name)
{
    const struct capture_reader nothing = {0};
    struct stat found;
    int standard = is_standard(name);
    *reader = nothing;
    reader->name = standard ? "standard input" : name;
    reader->size = -1;
    reader->file = standard ? stdin : fopen(name, "rb");
    if (reader->file == NULL)
        return bad_data("%s cannot be opened: %s", name, strerror(errno));
    if (fstat(fileno(reader->file), &found) == 0 && S_ISREG(found.st_mode))
        reader->size = found.st_size;
    if (read_header(reader) == 0)
        return 0;
    capture_close(reader);
    return 1;
}

enum capture_step capture_next(struct capture_reader *reader, struct captured *frame)
{
    enum capture_step step = reader->pcapng != NULL ? pcapng_next(reader, frame) : pcap_next(reader, frame);
    if (step != CAPTURE_FRAME)
        return step;
    reader->number++;
    progress_show(reader->number, reader->size <= 0 ? -1 : (int)(100 * reader->taken / reader->size));
    return CAPTURE_FRAME;
}

void capture_close(struct capture_reader *reader)
{
    pcapng_close(reader);
    if (reader->file != NULL && reader->file != stdin)
        fclose(reader->file);
    reader->file = NULL;
}
