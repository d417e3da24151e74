/* The command `hello-write`: the payload of a Smart-Hello from the lines that `hello` prints. */
#include <errno.h>
#include <stdio.h>
#include <string.h>

#include "commands.h"
#include "message.h"
#include "path.h"
#include "process.h"

/* As many numbers as the contents of a payload have that is as long as a frame, and more: what does not fit is too long for a frame. */
#define NUMBERS_MAX SHINGLEBAR_FRAME_LENGTH_MAX
#define NUMBER_BYTES 8
#define SECTIONS 4
#define BLANKS " \t\r\n"
#define MARKS ",;:"

/* The sub-TLVs of one kind: how many there are, and their numbers. */
struct section {
    uint64_t count;
    size_t length;
    uint64_t numbers[NUMBERS_MAX];
};

enum { PARAMETERS, NICKNAMES, TREES, SMART_MACS };

static struct section sections[SECTIONS];
static uint8_t contents[(SECTIONS + SECTIONS * NUMBERS_MAX) * NUMBER_BYTES];
static uint8_t payload[SHINGLEBAR_FRAME_LENGTH_MAX];

/* Puts a number behind those of a section, and gives its place; the last place where there is no room. */
static size_t put(struct section *to, uint64_t number)
{
    size_t at = to->length < NUMBERS_MAX ? to->length++ : NUMBERS_MAX - 1;
    to->numbers[at] = number;
    return at;
}

/* Marks behind a word mean nothing; within one they are an address's. */
static void drop_marks(char *line)
{
    for (char *at = strpbrk(line, MARKS); at != NULL; at = strpbrk(at + 1, MARKS))
        if (at[1] == '\0' || strchr(BLANKS, at[1]) != NULL)
            *at = ' ';
}

static int word_is(const char *word, const char *expected)
{
    return word != NULL && strcmp(word, expected) == 0;
}

static const char *next_word(void)
{
    return strtok(NULL, BLANKS);
}

/* The next word is this one, or a number that goes to a section: 1, or 0 if it is not. */
static int take_word(const char *expected)
{
    return word_is(next_word(), expected);
}

static int take_number(struct section *to)
{
    uint64_t number;
    const char *word = next_word();
    return word != NULL && read_number(word, &number) && (put(to, number), 1);
}

static int take_hex(struct section *to, const char *word)
{
    uint64_t number;
    return word != NULL && read_hex(word, &number) && (put(to, number), 1);
}

/* holding time 30 s, flags 0000 */
static int take_parameters(struct section *to)
{
    return take_word("time") && take_number(to) && take_word("s") && take_word("flags") && take_hex(to, next_word());
}

/* nickname 1234, priority 64, tree root priority 32768; nickname .. or nickname none */
static int take_nicknames(struct section *to)
{
    size_t count = put(to, 0);
    const char *word = next_word();
    if (word_is(word, "none"))
        return next_word() == NULL;
    for (;;) {
        uint64_t nickname;
        if (word == NULL || !read_hex(word, &nickname) || !take_word("priority") || !take_number(to) || !take_word("tree")
            || !take_word("root") || !take_word("priority") || !take_number(to))
            return 0;
        put(to, nickname);
        to->numbers[count]++;
        word = next_word();
        if (word == NULL)
            return 1;
        if (!word_is(word, "nickname"))
            return 0;
        word = next_word();
    }
}

/* trees from 1: 1234 1235 */
static int take_trees(struct section *to)
{
    if (!take_word("from") || !take_number(to))
        return 0;
    size_t count = put(to, 0);
    for (const char *word = next_word(); word != NULL; word = next_word(), to->numbers[count]++)
        if (!take_hex(to, word))
            return 0;
    return 1;
}

/* VLAN 10, multihomed: 02-00-00-00-00-01 */
static int take_smart_mac(struct section *to, int fine)
{
    put(to, (uint64_t)fine);
    size_t multihomed = put(to, 0);
    if (!take_number(to))
        return 0;
    size_t count = put(to, 0);
    const char *word = next_word();
    if (word_is(word, "multihomed")) {
        to->numbers[multihomed] = 1;
        word = next_word();
    }
    for (; word != NULL; word = next_word(), to->numbers[count]++) {
        uint64_t mac;
        if (!read_address(word, &mac))
            return 0;
        put(to, mac);
    }
    return 1;
}

/* A line: 1, 0 where there is nothing in it, -1 where it is in another form. */
static int take_line(char *line)
{
    line[strcspn(line, "#")] = '\0';
    drop_marks(line);
    const char *word = strtok(line, BLANKS);
    int kind = PARAMETERS, taken = 0;
    if (word == NULL)
        return 0;
    if (word_is(word, "holding"))
        taken = take_parameters(&sections[kind]) && next_word() == NULL;
    else if (word_is(word, "nickname"))
        taken = take_nicknames(&sections[kind = NICKNAMES]);
    else if (word_is(word, "trees"))
        taken = take_trees(&sections[kind = TREES]);
    else if (word_is(word, "VLAN") || word_is(word, "FGL"))
        taken = take_smart_mac(&sections[kind = SMART_MACS], word_is(word, "FGL"));
    sections[kind].count++;
    return taken ? 1 : -1;
}

/* Reads the lines of a file: 0, or 1 and said. */
static int take_lines(const char *name, FILE *file)
{
    static char line[TEXT_ROOM];
    for (unsigned long number = 1; fgets(line, sizeof line, file) != NULL; number++) {
        int whole = strchr(line, '\n') != NULL || feof(file);
        if (!whole || take_line(line) < 0)
            return bad_data("%s: line %lu is not a line of `hello`", name, number);
        for (int i = 0; i < SECTIONS; i++)
            if (sections[i].length == NUMBERS_MAX)
                return bad_data("%s: line %lu: more than a frame has room for", name, number);
    }
    return ferror(file) ? bad_data("%s: %s", name, strerror(errno)) : 0;
}

static size_t number_put(size_t at, uint64_t number)
{
    for (int byte = NUMBER_BYTES; byte-- > 0; number >>= 8)
        contents[at + (size_t)byte] = (uint8_t)(number & 0xFF);
    return at + NUMBER_BYTES;
}

/* The contents area of the sections; its length. */
static size_t contents_put(void)
{
    size_t length = 0;
    for (int i = 0; i < SECTIONS; i++) {
        length = number_put(length, sections[i].count);
        for (size_t at = 0; at < sections[i].length; at++)
            length = number_put(length, sections[i].numbers[at]);
    }
    return length;
}

static void payload_say(size_t length, int json)
{
    static struct text line;
    line.json = json;
    if (json) {
        json_number(&line, "payload_bytes", length);
        json_quote(&line, "payload");
    }
    for (size_t at = 0; at < length; at++)
        text_hex(&line, payload[at], 2);
    if (json)
        json_unquote(&line);
    line_out(&line);
}

int hello_write_command(const struct options *options)
{
    int standard = is_standard(options->text);
    const char *name = standard ? "standard input" : options->text;
    FILE *file = standard ? stdin : fopen(options->text, "r");
    if (file == NULL)
        return bad_data("%s: %s", name, strerror(errno));
    int status = take_lines(name, file);
    if (!standard)
        fclose(file);
    if (status != 0)
        return status;
    uint64_t answer = shinglebar_hello_write(contents, contents_put(), payload, sizeof payload);
    if (answer == SHINGLEBAR_REFUSAL_OUTPUT_LENGTH)
        return bad_data("%s: more than a frame has room for", name);
    if (shinglebar_is_refusal(answer))
        return bad_data("refused %u: %s", shinglebar_refusal(answer), shinglebar_refusal_string(answer));
    payload_say(shinglebar_hello_length(answer), options->json);
    return output_ready() != 0;
}
