/*
 * A fuzz target over shinglebar_report, for libFuzzer or with main.c. fuzz/README.md says how to run it.
 *
 * An input: length of the output area (2 bytes, most significant first), and the rest is the table. Unless the high bit of the first byte
 * is set, the table ends at a whole record.
 *
 * After the call: a refusal is 16 and has changed nothing; behind what is written nothing has changed; the text of a bad length is its one
 * line; any other is lines of nicknames, strictly rising, with the counts of their learned and configured records, then the free and the
 * spoilt slots, all of which add up to the slots.
 */
#include <stdint.h>
#include <stdio.h>
#include <stdlib.h>
#include <string.h>

#include "shinglebar.h"

int LLVMFuzzerInitialize(int *count, char ***arguments);
int LLVMFuzzerTestOneInput(const uint8_t *bytes, size_t length);

static void check(int holds, uint64_t word, const char *what)
{
    if (!holds) {
        fprintf(stderr, "report: %#llx: %s\n", (unsigned long long)word, what);
        abort();
    }
}

/* The slots of a state, of one nickname or, where that is 0, of any. */
static unsigned count(const uint8_t *table, size_t length, unsigned state, unsigned nickname)
{
    unsigned found = 0;
    for (size_t at = 0; at < length; at += SHINGLEBAR_RECORD_LENGTH) {
        struct shinglebar_record record = shinglebar_unpack_record(table + at);
        found += record.state == state && (nickname == 0 || record.nickname == nickname);
    }
    return found;
}

/* The line that is due at the text's place: its length. */
static size_t line_at(uint64_t word, const char *text, const char *line)
{
    size_t length = strlen(line);
    check(strncmp(text, line, length) == 0, word, "another line is due");
    return length;
}

static void check_text(uint64_t word, const char *text, size_t written, const uint8_t *table, size_t length)
{
    unsigned nickname, before = 0, sum = 0, learned, configured;
    size_t at = 0;
    char line[40];
    while (at < written && sscanf(text + at, "%4X ", &nickname) == 1 && text[at] != 'f') {
        learned = count(table, length, SHINGLEBAR_RECORD_LEARNED, nickname);
        configured = count(table, length, SHINGLEBAR_RECORD_CONFIGURED, nickname);
        check(nickname > before && learned + configured > 0, word, "nicknames do not rise, or one has no record");
        snprintf(line, sizeof line, "%04X %u %u\n", nickname, learned, configured);
        at += line_at(word, text + at, line);
        before = nickname;
        sum += learned + configured;
    }
    unsigned empty = count(table, length, SHINGLEBAR_RECORD_FREE, 0), spoilt = count(table, length, SHINGLEBAR_RECORD_SPOILT, 0);
    snprintf(line, sizeof line, "free %u\nspoilt %u\n", empty, spoilt);
    at += line_at(word, text + at, line);
    check(at == written, word, "the text goes on");
    check(sum + empty + spoilt == length / SHINGLEBAR_RECORD_LENGTH, word, "the counts do not add up");
}

int LLVMFuzzerInitialize(int *count, char ***arguments)
{
    (void)count;
    (void)arguments;
    return 0;
}

int LLVMFuzzerTestOneInput(const uint8_t *bytes, size_t length)
{
    static uint8_t out[(1 << 16) + 1];
    size_t room = length < 2 ? 0 : (size_t)bytes[0] << 8 | bytes[1];
    const uint8_t *table = length < 2 ? bytes : bytes + 2;
    size_t table_length = length < 2 ? 0 : length - 2, at;
    if (room >> 15 == 0)
        table_length -= table_length % SHINGLEBAR_RECORD_LENGTH;
    memset(out, 0, sizeof out);
    uint64_t word = shinglebar_report_any(table, table_length, out, room);
    size_t written = shinglebar_is_refusal(word) ? 0 : shinglebar_written_length(word);
    check(word == SHINGLEBAR_REFUSAL_OUTPUT_LENGTH || word == (SHINGLEBAR_REPORT_WRITTEN | (uint64_t)written << 8), word,
          "no word of the call");
    check(written <= room && written <= SHINGLEBAR_REPORT_LENGTH_MAX, word, "too long");
    for (at = written; at < sizeof out; at++)
        check(out[at] == 0, word, "the area is changed behind what is written");
    if (shinglebar_is_refusal(word))
        return 0;
    if (shinglebar_is_refusal(shinglebar_spoilt_any(table, table_length)))
        check(strcmp((const char *)out, "refused 2\n") == 0, word, "a bad length has another text");
    else
        check_text(word, (const char *)out, written, table, table_length);
    return 0;
}
