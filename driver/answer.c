#include "answer.h"

#include "flush.h"
#include "shinglebar.h"

static const char *const LEARNING[] = {"learned", "refreshed", "kept", "not learned: the table is full"};

static int is_flush(const struct frame *frame)
{
    return frame->has_payload && (frame->protocol & 0xFFF) == FLUSH_PROTOCOL;
}

static void delivered_put(struct text *to, uint64_t answer)
{
    const char *learning = LEARNING[shinglebar_learning(answer)];
    if (to->json) {
        json_words(to, "answer", "delivered");
        json_number(to, "native_bytes", shinglebar_native_length(answer));
        json_words(to, "native_label_kind", shinglebar_label_kind(answer) == SHINGLEBAR_LABEL_VLAN ? "VLAN" : "FGL");
        json_number(to, "native_label", shinglebar_label(answer));
        json_words(to, "learning", learning);
        return;
    }
    text_put(to, "delivered ");
    text_number(to, shinglebar_native_length(answer));
    text_put(to, " bytes of ");
    text_label(to, shinglebar_label_kind(answer), shinglebar_label(answer));
    text_put(to, ", ");
    text_put(to, learning);
}

/* Where the driver's own reading differs from the library's answer, the line says so and names no meaning. */
static void differs_put(struct text *to)
{
    const char *words = "the driver reads the payload otherwise";
    if (to->json)
        json_words(to, "differs", words);
    else {
        text_put(to, ": ");
        text_put(to, words);
    }
}

static void flushed_put(struct text *to, uint64_t answer, const struct frame *frame)
{
    struct flush_fault fault;
    if (to->json) {
        json_words(to, "answer", "flushed");
        json_number(to, "cleared", shinglebar_count(answer));
    } else {
        text_put(to, "flushed, ");
        text_number(to, shinglebar_count(answer));
        text_put(to, " cleared");
    }
    if (is_flush(frame) && flush_is_good(frame->payload, frame->payload_length, &fault))
        flush_put(to, frame_ingress(frame), frame->payload, frame->payload_length);
    else
        differs_put(to);
}

static void fault_put(struct text *to, const struct frame *frame)
{
    struct flush_fault fault;
    if (!is_flush(frame) || flush_is_good(frame->payload, frame->payload_length, &fault)) {
        differs_put(to);
    } else if (to->json) {
        json_number(to, "payload_byte", fault.at);
        json_words(to, "rule", fault.rule);
    } else {
        text_put(to, ": byte ");
        text_number(to, fault.at);
        text_put(to, " of the payload: ");
        text_put(to, fault.rule);
    }
}

void refusal_put(struct text *to, const char *before, uint64_t answer)
{
    if (to->json) {
        json_number(to, "refusal", shinglebar_refusal(answer));
        json_words(to, "why", shinglebar_refusal_string(answer));
        return;
    }
    text_put(to, before);
    text_put(to, "refused ");
    text_number(to, shinglebar_refusal(answer));
    text_put(to, ": ");
    text_put(to, shinglebar_refusal_string(answer));
}

void answer_put(struct text *to, uint64_t answer, const struct frame *frame)
{
    const char *words = "refused";
    switch (shinglebar_kind(answer)) {
    case SHINGLEBAR_RECEIVE_DELIVERED:
        delivered_put(to, answer);
        return;
    case SHINGLEBAR_RECEIVE_FLUSHED:
        flushed_put(to, answer, frame);
        return;
    case SHINGLEBAR_RECEIVE_ONWARD:
        words = "onward";
        break;
    case SHINGLEBAR_RECEIVE_OTHER_CHANNEL:
        words = "other channel";
        break;
    default:
        break;
    }
    if (to->json)
        json_words(to, "answer", words);
    else if (!shinglebar_is_refusal(answer))
        text_put(to, words);
    if (shinglebar_is_refusal(answer))
        refusal_put(to, "", answer);
    if (answer == SHINGLEBAR_REFUSAL_PAYLOAD)
        fault_put(to, frame);
}
