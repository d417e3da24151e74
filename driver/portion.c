#include "portion.h"

#include <string.h>

#include "flush.h"
#include "frame.h"

int portion_open(struct portion *portion, const struct options *options, const uint8_t *frame, size_t length)
{
    uint8_t free_slot[SHINGLEBAR_RECORD_LENGTH] = {0};
    static uint8_t native[SHINGLEBAR_FRAME_LENGTH_MAX];
    uint64_t answer = shinglebar_receive_any(&options->settings, frame, length, free_slot, sizeof free_slot, native,
                                             sizeof native);
    struct frame read = frame_read(frame, length, options->settings.port);
    if (shinglebar_kind(answer) != SHINGLEBAR_RECEIVE_FLUSHED || !read.has_payload
        || (read.protocol & 0xFFF) != FLUSH_PROTOCOL || read.payload_length > sizeof portion->payload)
        return 0;
    portion->is_open = 1;
    portion->ingress = frame_ingress(&read);
    portion->length = read.payload_length;
    memcpy(portion->payload, read.payload, read.payload_length);
    portion->next = portion->cleared = portion->calls = 0;
    return 1;
}

uint64_t portion_step(struct portion *portion, const struct options *options, struct table *table)
{
    uint64_t answer = shinglebar_flush_portion_any(portion->ingress, portion->payload, portion->length, portion->next,
                                                   options->portion, table->bytes, table->length);
    portion->is_open = 0;
    if (shinglebar_is_refusal(answer))
        return answer;
    portion->calls++;
    portion->cleared += shinglebar_count(answer);
    portion->next = shinglebar_next_slot(answer);
    portion->is_open = portion->next < table->length / SHINGLEBAR_RECORD_LENGTH;
    return answer;
}
