/* The command `write`: an Address Flush from lists, as a payload or as a frame of a capture. */
#include <string.h>
#include <time.h>

#include "answer.h"
#include "capture.h"
#include "commands.h"
#include "lists.h"
#include "message.h"
#include "process.h"
#include "shinglebar.h"

#define ALL_SWITCHES 0x0180C2000040u
#define ALL_EGRESS 0x0180C2000042u
/* M is 1, Hop Count 63. */
#define HEADER 0x083F
#define FRONT_BYTES 42

/* A General frame to all switches: the egress nickname of such a frame is a tree's, for which the sender's own stands. */
static size_t frame_write(const struct options *options, const uint8_t *payload, size_t length, uint8_t *frame)
{
    static struct list front;
    front.length = 0;
    list_put(&front, ALL_SWITCHES, 6);
    list_put(&front, options->source, 6);
    list_put(&front, 0x22F3, 2);
    list_put(&front, HEADER, 2);
    list_put(&front, options->ingress, 2);
    list_put(&front, options->ingress, 2);
    list_put(&front, ALL_EGRESS, 6);
    list_put(&front, options->source, 6);
    list_put(&front, 0x81000001, 4);
    list_put(&front, 0x8946, 2);
    list_put(&front, 0x00090000, 4);
    memcpy(frame, front.bytes, front.length);
    memcpy(frame + front.length, payload, length);
    return front.length + length;
}

static int capture_put(const struct options *options, const uint8_t *payload, size_t length)
{
    static uint8_t frame[FRONT_BYTES + SHINGLEBAR_WRITTEN_LENGTH_MAX];
    static struct captured stamp;
    struct whole out = WHOLE_NONE;
    struct capture_form form = {0, 0};
    stamp.seconds = (uint32_t)time(NULL);
    stamp.digits = 6;
    stamp.timed = 1;
    size_t bytes = frame_write(options, payload, length, frame);
    int status = capture_create(&out, options->out, form) != 0 || capture_add(&out, form, &stamp, frame, bytes) != 0
                 || whole_ready(&out) != 0 || whole_replace(&out) != 0;
    whole_end(&out);
    return status;
}

static int payload_put(const struct options *options, const uint8_t *payload, size_t length)
{
    struct whole out = WHOLE_NONE;
    int status = whole_begin(&out, options->payload) != 0 || whole_write(&out, payload, length) != 0
                 || whole_ready(&out) != 0 || whole_replace(&out) != 0;
    whole_end(&out);
    return status;
}

int write_command(const struct options *options)
{
    static uint8_t payload[SHINGLEBAR_WRITTEN_LENGTH_MAX];
    static struct text line;
    const struct lists *lists = &options->lists;
    uint64_t answer = shinglebar_write_flush_any(
        lists->nicknames.bytes, lists->nicknames.length, lists->vlans.bytes, lists->vlans.length, lists->fine.bytes,
        lists->fine.length, lists->macs.bytes, lists->macs.length, payload, sizeof payload);
    if (shinglebar_is_refusal(answer))
        return bad_usage("%s", shinglebar_refusal_string(answer));
    size_t length = shinglebar_written_length(answer);
    if (options->payload != NULL && payload_put(options, payload, length) != 0)
        return 1;
    if (options->out != NULL && capture_put(options, payload, length) != 0)
        return 1;
    line.json = options->json;
    if (line.json) {
        json_number(&line, "payload_bytes", length);
    } else {
        text_put(&line, "flush written, ");
        text_number(&line, length);
        text_put(&line, " bytes of payload");
    }
    line_out(&line);
    return output_ready() != 0;
}
