#include "flush.h"

#include <stdarg.h>
#include <stdio.h>

#include "shinglebar.h"

/* How many parts of each list a line names. */
#define PARTS_NAMED 8
#define VLAN_LAST 0xFFE
#define FINE_LAST 0xFFFFFF

enum type { VLAN_BLOCKS = 1, VLAN_MAP, FINE_BLOCKS, FINE_LIST, FINE_MAP, ALL_LABELS, MAC_LIST, MAC_BLOCKS, TYPES };

/* The rules for a TLV's length: a multiple of a number, or at least a number; type 6 has none. */
static const struct {
    unsigned multiple;
    unsigned least;
} LENGTHS[TYPES] = {{1, 0}, {4, 0}, {1, 2}, {6, 0}, {3, 0}, {1, 3}, {0, 0}, {6, 0}, {12, 0}};

struct tlv {
    unsigned type;
    size_t at;
    size_t length;
    const uint8_t *value;
};

/* A list in the making; `more` names the count of its parts that are not named. */
struct list {
    struct text *to;
    const char *more;
    unsigned count;
};

static uint64_t number(const uint8_t *at, int bytes)
{
    uint64_t value = 0;
    for (int i = 0; i < bytes; i++)
        value = value << 8 | at[i];
    return value;
}

__attribute__((format(printf, 3, 4))) static int broken(struct flush_fault *fault, size_t at, const char *form, ...)
{
    va_list values;
    va_start(values, form);
    fault->at = at;
    vsnprintf(fault->rule, sizeof fault->rule, form, values);
    va_end(values);
    return 0;
}

/* TLVs end where nothing is left but a lone zero, which is padding. */
static int tlvs_are_done(const uint8_t *payload, size_t length, size_t at)
{
    return at >= length || (length - at == 1 && payload[at] == 0);
}

static int tlv_is_good(const uint8_t *payload, size_t length, size_t at, struct flush_fault *fault)
{
    if (length - at < 2)
        return broken(fault, at, "a lone last byte that is not 0, where a TLV has type and length");
    unsigned type = payload[at], has = payload[at + 1];
    size_t left = length - at - 2;
    if (has > left)
        return broken(fault, at, "a TLV of type %u and length %u passes the end: %zu bytes are left", type, has, left);
    if (type == 0 || type >= TYPES)
        return 1;
    unsigned multiple = LENGTHS[type].multiple, least = LENGTHS[type].least;
    if (multiple == 0 && has != 0)
        return broken(fault, at, "a TLV of type %u has length %u, not 0", type, has);
    if (multiple > 1 && has % multiple != 0)
        return broken(fault, at, "a TLV of type %u has length %u, no multiple of %u", type, has, multiple);
    if (has < least)
        return broken(fault, at, "a TLV of type %u has length %u, under %u", type, has, least);
    return 1;
}

int flush_is_good(const uint8_t *payload, size_t length, struct flush_fault *fault)
{
    if (length < 1)
        return broken(fault, 0, "K-nicks is missing");
    size_t at = 1 + 2 * (size_t)payload[0];
    if (length < at)
        return broken(fault, 1, "K-nicks %u means %zu bytes of nicknames: %zu are left", payload[0], at - 1, length - 1);
    if (length == at)
        return broken(fault, at, "K-VLBs is missing");
    size_t blocks = payload[at++];
    if (4 * blocks > length - at)
        return broken(fault, at, "K-VLBs %zu means %zu bytes of VLAN blocks: %zu are left", blocks, 4 * blocks, length - at);
    if (blocks > 0)
        return 1;
    for (; !tlvs_are_done(payload, length, at); at += 2 + (size_t)payload[at + 1])
        if (!tlv_is_good(payload, length, at, fault))
            return 0;
    return 1;
}

/* Begins a part of a list: 1 if it is to be named. */
static int part(struct list *list)
{
    if (list->count++ >= PARTS_NAMED)
        return 0;
    if (list->to->json)
        json_quote(list->to, NULL);
    else
        text_put(list->to, list->count == 1 ? " " : ", ");
    return 1;
}

static void part_end(struct list *list)
{
    if (list->to->json)
        json_unquote(list->to);
}

static void labels(struct list *list, unsigned kind, uint64_t first, uint64_t last)
{
    if (first > last || !part(list))
        return;
    text_label(list->to, kind, (uint32_t)first);
    if (first < last) {
        text_put(list->to, " to ");
        text_number(list->to, last);
    }
    part_end(list);
}

static void vlan_blocks(struct list *list, const uint8_t *value, size_t length)
{
    for (size_t at = 0; at < length; at += 4) {
        uint64_t start = number(value + at, 2) & 0xFFF, end = number(value + at + 2, 2) & 0xFFF;
        labels(list, SHINGLEBAR_LABEL_VLAN, start == 0 ? 1 : start, end > VLAN_LAST ? VLAN_LAST : end);
    }
}

/* The runs of bits that are set, from the number `start` on, within the numbers that are labels. */
static void map_runs(struct list *list, unsigned kind, uint64_t start, const uint8_t *map, size_t bytes)
{
    uint64_t least = kind == SHINGLEBAR_LABEL_VLAN ? 1 : 0, most = kind == SHINGLEBAR_LABEL_VLAN ? VLAN_LAST : FINE_LAST;
    uint64_t first = 0;
    int running = 0;
    for (size_t bit = 0; bit <= 8 * bytes; bit++) {
        uint64_t label = start + bit;
        int set = bit < 8 * bytes && map[bit / 8] >> (7 - bit % 8) & 1 && label >= least && label <= most;
        if (set && !running)
            first = label;
        if (!set && running)
            labels(list, kind, first, label - 1);
        running = set;
    }
}

static void tlv_labels(struct list *list, const struct tlv *tlv)
{
    const uint8_t *value = tlv->value;
    size_t step = tlv->type == FINE_BLOCKS ? 6 : 3;
    switch (tlv->type) {
    case VLAN_BLOCKS:
        vlan_blocks(list, value, tlv->length);
        break;
    case VLAN_MAP:
        map_runs(list, SHINGLEBAR_LABEL_VLAN, number(value, 2) & 0xFFF, value + 2, tlv->length - 2);
        break;
    case FINE_BLOCKS:
    case FINE_LIST:
        for (size_t at = 0; at < tlv->length; at += step)
            labels(list, SHINGLEBAR_LABEL_FINE_GRAINED, number(value + at, 3), number(value + at + step - 3, 3));
        break;
    case FINE_MAP:
        map_runs(list, SHINGLEBAR_LABEL_FINE_GRAINED, number(value, 3), value + 3, tlv->length - 3);
        break;
    default:
        break;
    }
}

static void tlv_macs(struct list *list, const struct tlv *tlv)
{
    size_t step = tlv->type == MAC_BLOCKS ? 12 : 6;
    if (tlv->type != MAC_LIST && tlv->type != MAC_BLOCKS)
        return;
    for (size_t at = 0; at < tlv->length; at += step) {
        uint64_t first = number(tlv->value + at, 6), last = number(tlv->value + at + step - 6, 6);
        if (first > last || !part(list))
            continue;
        text_address(list->to, first);
        if (first < last) {
            text_put(list->to, " to ");
            text_address(list->to, last);
        }
        part_end(list);
    }
}

/* Takes the TLV at `tlv->at`, which goes on to the next: 1, or 0 at the end of a good payload. */
static int tlv_next(const uint8_t *payload, size_t length, struct tlv *tlv)
{
    if (tlvs_are_done(payload, length, tlv->at))
        return 0;
    tlv->type = payload[tlv->at];
    tlv->length = payload[tlv->at + 1];
    tlv->value = payload + tlv->at + 2;
    tlv->at += 2 + tlv->length;
    return 1;
}

static unsigned count_types(const uint8_t *payload, size_t length, size_t at, unsigned least, unsigned most)
{
    struct tlv tlv = {0, at, 0, NULL};
    unsigned count = 0;
    while (tlv_next(payload, length, &tlv))
        count += tlv.type >= least && tlv.type <= most;
    return count;
}

static struct list begin(struct text *to, const char *words, const char *name, const char *more)
{
    struct list list = {to, more, 0};
    if (to->json) {
        json_open(to, name, "[");
    } else {
        text_put(to, "; ");
        text_put(to, words);
        text_put(to, ":");
    }
    return list;
}

/* Ends a list; `none` is what a list without parts means. */
static void end(struct list *list, const char *none)
{
    unsigned others = list->count > PARTS_NAMED ? list->count - PARTS_NAMED : 0;
    if (list->count == 0 && part(list)) {
        text_put(list->to, none);
        part_end(list);
    }
    if (list->to->json) {
        json_close(list->to, "]");
        json_number(list->to, list->more, others);
    } else if (others != 0) {
        text_put(list->to, ", and ");
        text_number(list->to, others);
        text_put(list->to, " more");
    }
}

/* Puts the nicknames; the header's ingress nickname stands for an empty list. */
static void nicknames_put(struct text *to, unsigned ingress, const uint8_t *payload)
{
    struct list list = begin(to, "nicknames", "nicknames", "more_nicknames");
    for (unsigned i = 0; i < payload[0]; i++)
        if (part(&list)) {
            text_hex(to, number(payload + 1 + 2 * (size_t)i, 2), 4);
            part_end(&list);
        }
    if (payload[0] == 0 && part(&list)) {
        text_hex(to, ingress, 4);
        text_put(to, to->json ? "" : " (the sender's)");
        part_end(&list);
    }
    end(&list, "");
    if (to->json)
        json_truth(to, "sender", payload[0] == 0);
}

static void others_put(struct text *to, unsigned others)
{
    if (to->json) {
        json_number(to, "skipped_tlvs", others);
    } else if (others != 0) {
        text_put(to, "; TLVs of other types: ");
        text_number(to, others);
    }
}

void flush_put(struct text *to, unsigned ingress, const uint8_t *payload, size_t length)
{
    size_t at = 1 + 2 * (size_t)payload[0], blocks = payload[at++];
    /* Blocks leave no TLVs: what follows them is ignored. */
    size_t tlvs = blocks > 0 ? length : at;
    struct tlv tlv = {0, tlvs, 0, NULL};
    nicknames_put(to, ingress, payload);
    int all = count_types(payload, length, tlvs, ALL_LABELS, ALL_LABELS) > 0;
    struct list list = begin(to, "labels", "labels", "more_labels");
    vlan_blocks(&list, payload + at, 4 * blocks);
    while (!all && tlv_next(payload, length, &tlv))
        tlv_labels(&list, &tlv);
    end(&list, all ? "all" : "none");
    list = begin(to, "MACs", "macs", "more_macs");
    tlv.at = tlvs;
    while (tlv_next(payload, length, &tlv))
        tlv_macs(&list, &tlv);
    end(&list, "all");
    others_put(to, count_types(payload, length, tlvs, 0, 0) + count_types(payload, length, tlvs, TYPES, UINT8_MAX));
}
