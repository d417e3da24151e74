/* The commands `compact`, `expand` and `ingress`: a capture to a capture. */
#include "answer.h"
#include "capture.h"
#include "commands.h"
#include "frame.h"
#include "message.h"
#include "path.h"
#include "process.h"
#include "shinglebar.h"

static uint64_t convert(const struct options *options, const struct captured *frame, uint8_t *out, size_t room)
{
    const struct shinglebar_settings *settings = &options->settings;
    if (options->command == COMPACT)
        return shinglebar_compact_any(settings, frame->bytes, frame->length, out, room);
    if (options->command == INGRESS)
        return shinglebar_ingress_any(settings, &options->given, frame->bytes, frame->length, out, room);
    return shinglebar_expand_any(settings, options->source, options->tagged, options->tag, frame->bytes, frame->length, out,
                                 room);
}

static const char *done_words(const struct options *options)
{
    return options->command == COMPACT ? "compacted" : options->command == EXPAND ? "expanded" : "ingressed";
}

/* The fine-grained label that ingress wrote: its two parts are 34 and 38 bytes from the start. */
static void label_put(struct text *line, const uint8_t *written)
{
    uint32_t high = (uint32_t)(written[34] & 0xF) << 8 | written[35];
    uint32_t label = high << 12 | (uint32_t)(written[38] & 0xF) << 8 | written[39];
    if (line->json) {
        json_number(line, "campus_label", label);
        return;
    }
    text_put(line, " of ");
    text_label(line, SHINGLEBAR_LABEL_FINE_GRAINED, label);
}

static void line_print(struct text *line, const struct options *options, unsigned long number,
                       const struct captured *captured, uint64_t answer, const uint8_t *written)
{
    const char *done = done_words(options);
    int native = options->command == INGRESS;
    struct frame frame = native ? frame_native(captured->bytes, captured->length)
                                : frame_read(captured->bytes, captured->length, options->settings.port);
    frame_put(line, number, captured, &frame);
    if (line->json)
        json_words(line, "answer", shinglebar_is_refusal(answer) ? "left out" : done);
    if (shinglebar_is_refusal(answer)) {
        refusal_put(line, " | left out, ", answer);
    } else if (line->json) {
        json_number(line, "written_bytes", shinglebar_written_length(answer));
    } else {
        text_put(line, " | ");
        text_put(line, done);
        text_put(line, " to ");
        text_number(line, shinglebar_written_length(answer));
        text_put(line, " bytes");
    }
    if (native && !shinglebar_is_refusal(answer))
        label_put(line, written);
    line_out(line);
}

static void totals_print(struct text *line, const struct options *options, unsigned long frames, unsigned long done)
{
    const char *words = done_words(options);
    if (line->json) {
        json_number(line, "frames", frames);
        json_number(line, words, done);
        json_number(line, "left_out", frames - done);
    } else {
        text_number(line, frames);
        text_put(line, " frames: ");
        text_number(line, done);
        text_put(line, " ");
        text_put(line, words);
        text_put(line, ", ");
        text_number(line, frames - done);
        text_put(line, " left out");
    }
    line_out(line);
}

/* What came before a cut counts: `*written` tells whether the output has been replaced. */
static int run(const struct options *options, struct capture_reader *reader, struct whole *out, int *written_out)
{
    static struct captured frame;
    static uint8_t written[SHINGLEBAR_FRAME_LENGTH_MAX];
    static struct text line;
    unsigned long done = 0;
    enum capture_step step;
    line.json = options->json;
    if (capture_create(out, options->out, reader->form) != 0)
        return 1;
    while ((step = capture_next(reader, &frame)) == CAPTURE_FRAME) {
        uint64_t answer = convert(options, &frame, written, sizeof written);
        int kept = !shinglebar_is_refusal(answer);
        done += (unsigned long)kept;
        if (!options->quiet)
            line_print(&line, options, reader->number, &frame, answer, written);
        if (kept && capture_add(out, reader->form, &frame, written, shinglebar_written_length(answer)) != 0)
            return 1;
    }
    if (step == CAPTURE_BAD)
        return 1;
    totals_print(&line, options, reader->number, done);
    if (output_ready() != 0 || whole_ready(out) != 0 || whole_replace(out) != 0)
        return 1;
    *written_out = 1;
    return step == CAPTURE_CUT;
}

int convert_command(const struct options *options)
{
    struct capture_reader reader;
    struct whole out = WHOLE_NONE;
    if (same_file(options->out, options->capture))
        return bad_usage("the capture and --out are different files");
    if (capture_open(&reader, options->capture) != 0)
        return 1;
    int written = 0;
    int status = run(options, &reader, &out, &written);
    if (!written && out.temporary != NULL)
        bad_data("%s stays as it was", options->out);
    whole_end(&out);
    capture_close(&reader);
    return status;
}
