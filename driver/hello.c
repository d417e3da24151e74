/* The command `hello`: what the payload of a Smart-Hello says. */
#include <stdio.h>

#include "commands.h"
#include "message.h"
#include "process.h"

/* More than the contents of a payload as long as a frame: a Smart-MAC without addresses, six bytes, has four numbers, and everything else
 * has fewer for its bytes; then the counts in front. */
#define CONTENTS_ROOM (6 * SHINGLEBAR_FRAME_LENGTH_MAX + 64)

static struct text line;

static void parameters(struct shinglebar_contents *it)
{
    uint64_t holding = shinglebar_contents_next(it), flags = shinglebar_contents_next(it);
    if (line.json) {
        json_number(&line, "holding_seconds", holding);
        json_hex(&line, "flags", flags, 4);
    } else {
        text_put(&line, "holding time ");
        text_number(&line, holding);
        text_put(&line, " s, flags ");
        text_hex(&line, flags, 4);
    }
    line_out(&line);
}

static void nickname_record(struct shinglebar_contents *it, int first)
{
    uint64_t priority = shinglebar_contents_next(it), root = shinglebar_contents_next(it);
    uint64_t nickname = shinglebar_contents_next(it);
    if (line.json) {
        json_open(&line, NULL, "{");
        json_hex(&line, "nickname", nickname, 4);
        json_number(&line, "priority", priority);
        json_number(&line, "tree_root_priority", root);
        json_close(&line, "}");
        return;
    }
    text_put(&line, first ? " " : "; nickname ");
    text_hex(&line, nickname, 4);
    text_put(&line, ", priority ");
    text_number(&line, priority);
    text_put(&line, ", tree root priority ");
    text_number(&line, root);
}

/* The records of a Nickname sub-TLV, which may have none. */
static void nicknames(struct shinglebar_contents *it)
{
    uint64_t count = shinglebar_contents_next(it);
    if (line.json)
        json_open(&line, "nicknames", "[");
    else
        text_put(&line, count == 0 ? "nickname none" : "nickname");
    for (uint64_t at = 0; at < count; at++)
        nickname_record(it, at == 0);
    if (line.json)
        json_close(&line, "]");
    line_out(&line);
}

static void trees(struct shinglebar_contents *it)
{
    uint64_t start = shinglebar_contents_next(it), count = shinglebar_contents_next(it);
    if (line.json) {
        json_number(&line, "first_tree", start);
        json_open(&line, "tree_roots", "[");
    } else {
        text_put(&line, "trees from ");
        text_number(&line, start);
        text_put(&line, ":");
    }
    while (count-- > 0) {
        uint64_t nickname = shinglebar_contents_next(it);
        if (line.json) {
            json_hex(&line, NULL, nickname, 4);
        } else {
            text_put(&line, " ");
            text_hex(&line, nickname, 4);
        }
    }
    if (line.json)
        json_close(&line, "]");
    line_out(&line);
}

static void smart_mac(struct shinglebar_contents *it)
{
    unsigned fine = (unsigned)shinglebar_contents_next(it);
    int multihomed = shinglebar_contents_next(it) != 0;
    uint32_t label = (uint32_t)shinglebar_contents_next(it);
    uint64_t count = shinglebar_contents_next(it);
    if (line.json) {
        json_label(&line, fine, label);
        json_truth(&line, "multihomed", multihomed);
        json_open(&line, "macs", "[");
    } else {
        text_label(&line, fine, label);
        text_put(&line, multihomed ? ", multihomed:" : ":");
    }
    while (count-- > 0) {
        uint64_t mac = shinglebar_contents_next(it);
        if (line.json) {
            json_address(&line, NULL, mac);
        } else {
            text_put(&line, " ");
            text_address(&line, mac);
        }
    }
    if (line.json)
        json_close(&line, "]");
    line_out(&line);
}

int hello_command(const struct options *options)
{
    static uint8_t contents[CONTENTS_ROOM];
    line.json = options->json;
    uint64_t answer = shinglebar_hello_read_any(options->digits.bytes, options->digits.length, contents, sizeof contents);
    if (shinglebar_is_refusal(answer))
        return bad_data("refused %u: %s", shinglebar_refusal(answer), shinglebar_refusal_string(answer));
    struct shinglebar_contents it = shinglebar_contents_of(contents, shinglebar_hello_length(answer));
    uint64_t count;
    shinglebar_contents_next(&it);
    parameters(&it);
    for (count = shinglebar_contents_next(&it); count > 0; count--)
        nicknames(&it);
    for (count = shinglebar_contents_next(&it); count > 0; count--)
        trees(&it);
    for (count = shinglebar_contents_next(&it); count > 0; count--)
        smart_mac(&it);
    return output_ready() != 0;
}
