/* The command `send`: the frames of a capture out of an interface. */
#define _POSIX_C_SOURCE 200809L
#include <errno.h>
#include <string.h>
#include <sys/socket.h>
#include <unistd.h>

#include "answer.h"
#include "capture.h"
#include "commands.h"
#include "frame.h"
#include "interface.h"
#include "message.h"
#include "process.h"
#include "shinglebar.h"
#include "watch.h"

static void line_print(struct text *line, const struct options *options, unsigned long number,
                       const struct captured *captured, uint64_t answer)
{
    int compacted = shinglebar_kind(answer) == SHINGLEBAR_SEND_COMPACTED;
    size_t length = compacted ? shinglebar_written_length(answer) : captured->length;
    struct frame frame = frame_read(captured->bytes, captured->length, options->settings.port);
    frame_put(line, number, captured, &frame);
    if (line->json)
        json_words(line, "answer", shinglebar_is_refusal(answer) ? "not sent" : compacted ? "compacted" : "as it is");
    if (shinglebar_is_refusal(answer)) {
        refusal_put(line, " | not sent, ", answer);
    } else if (line->json) {
        json_number(line, "sent_bytes", length);
    } else {
        text_put(line, compacted ? " | sent compacted, " : " | sent as it is, ");
        text_number(line, length);
        text_put(line, " bytes");
    }
    line_out(line);
}

/* Sends what the library chooses: the frame itself, the compacted one, or nothing where it refuses. 0, or 1 and said. */
static int send_frame(int file, const struct options *options, struct watch *watch, const struct captured *frame,
                      unsigned long number, uint64_t *answer)
{
    static uint8_t work[SHINGLEBAR_COMPACT_LENGTH_MAX];
    if (watch_read(watch) != 0)
        return 1;
    *answer = shinglebar_send_watched_any(&options->settings, &watch->now, watch_clock(), frame->bytes, frame->length, work,
                                          sizeof work);
    int compacted = shinglebar_kind(*answer) == SHINGLEBAR_SEND_COMPACTED;
    const uint8_t *bytes = compacted ? work : frame->bytes;
    size_t length = compacted ? shinglebar_written_length(*answer) : frame->length;
    if (!shinglebar_is_refusal(*answer) && send(file, bytes, length, 0) != (ssize_t)length)
        return bad_data("interface %s: frame %lu, %zu bytes: %s", options->interface, number, length, strerror(errno));
    return 0;
}

static void totals_print(struct text *line, unsigned long sent, unsigned long frames)
{
    if (line->json) {
        json_number(line, "frames", frames);
        json_number(line, "sent", sent);
    } else {
        text_number(line, sent);
        text_put(line, " of ");
        text_number(line, frames);
        text_put(line, " frames sent");
    }
    line_out(line);
}

static int send_all(int file, const struct options *options, struct watch *watch, struct capture_reader *reader)
{
    static struct captured frame;
    static struct text line;
    unsigned long sent = 0;
    enum capture_step step;
    line.json = options->json;
    while ((step = capture_next(reader, &frame)) == CAPTURE_FRAME) {
        uint64_t answer;
        if (send_frame(file, options, watch, &frame, reader->number, &answer) != 0)
            return 1;
        sent += !shinglebar_is_refusal(answer);
        if (!options->quiet)
            line_print(&line, options, reader->number, &frame, answer);
    }
    totals_print(&line, sent, reader->number);
    return step != CAPTURE_END || output_ready() != 0;
}

int send_command(const struct options *options)
{
    struct capture_reader reader;
    struct watch watch;
    if (capture_open(&reader, options->capture) != 0)
        return 1;
    int file = watch_open(&watch, options->watch, 0) == 0 ? interface_to_send(options->interface) : -1;
    int status = file < 0 || send_all(file, options, &watch, &reader);
    watch_close(&watch);
    if (file >= 0)
        close(file);
    capture_close(&reader);
    return status;
}
