#include "options.h"

#include <stdio.h>
#include <string.h>

#include "map.h"
#include "message.h"
#include "path.h"
#include "shinglebar.h"
#include "table.h"

#define WITH_SETTINGS (RECEIVE | COMPACT | EXPAND | LIVE | SEND | INGRESS)
#define WITH_CAPTURE (RECEIVE | COMPACT | EXPAND | SEND | INGRESS)
#define WITH_TABLE (RECEIVE | LOOKUP | AGE | CHECK | LIVE | SET | UNSET | WIDEN | WHY | REPORT)
/* A capture, with the settings of its port, may be named or left out. */
#define MAY_HAVE_CAPTURE WHY
#define WITH_PAIR (LOOKUP | SET | UNSET)
#define WITH_ANY (WITH_SETTINGS | WITH_TABLE | WRITE | HELLO | HELLO_WRITE)
#define RFC6325_CONFIDENCE 32
/* A configured record is not displaced by a learned one whatever its confidence; the highest says so. */
#define SET_CONFIDENCE 255
#define SAVE_SECONDS 30
#define HOP_COUNT_MAX 63
#define ALL_RBRIDGES UINT64_C(0x0180C2000040)

/* How an option's value is written, and so where it goes. */
enum form { TEXT, ADDRESS, NICKNAME, SWITCH, R_BIT, NUMBER, FLAG, BYTES, NICKNAMES, BLOCKS, MAC_BLOCKS };

struct option {
    const char *name;
    const char *value;
    const char *help;
    enum form form;
    unsigned commands;
    unsigned required;
    size_t place;
    uint32_t least;
    uint32_t most;
};

#define AT(member) offsetof(struct options, member)
/* The options that were given, a bit for each. */
#define BIT(index) (UINT64_C(1) << (index))

static const struct option OPTIONS[] = {
    {"--table", "FILE", "the address table, records of 15 bytes; replaced whole or not at all", TEXT, WITH_TABLE & ~WIDEN,
     WITH_TABLE & ~WIDEN, AT(table), 0, 0},
    {"--table", "FILE", "the address table, records of 14 bytes; replaced whole or not at all", TEXT, WIDEN, WIDEN, AT(table), 0,
     0},
    {"--slots", "N", "makes the table with N free slots if its file is missing, 1 to 4096", NUMBER, RECEIVE | LIVE | SET | WHY, 0,
     AT(slots), 1, TABLE_SLOTS_MAX},
    {"--out", "FILE", "the capture to write; replaced whole or not at all; - is standard output", TEXT,
     RECEIVE | COMPACT | EXPAND | LIVE | WRITE | INGRESS, COMPACT | EXPAND | INGRESS, AT(out), 0, 0},
    {"--map", "FILE", "the port's map, a line `VLAN LABEL` for each pair of VLAN and fine-grained label", TEXT,
     RECEIVE | LIVE | INGRESS | WHY, INGRESS, AT(map), 0, 0},
    {"--multihomed", "BIT", "first or second, the R bit that marks frames of stations on two switches (none)", R_BIT,
     RECEIVE | LIVE | WHY, 0, AT(settings.multihomed), 0, 0},
    {"--smart", "on|off", "whether Smart Endnodes encapsulate for themselves, with the port's nickname as ingress (off)", SWITCH,
     RECEIVE | LIVE | WHY, 0, AT(settings.smart), 0, 0},
    {"--interface", "NAME", "the Linux interface", TEXT, LIVE | SEND, LIVE | SEND, AT(interface), 0, 0},
    {"--frames", "N", "stops after N frames", NUMBER, LIVE, 0, AT(frames), 1, UINT32_MAX},
    {"--for", "SECONDS", "stops after so many seconds", NUMBER, LIVE, 0, AT(duration), 1, UINT32_MAX},
    {"--save", "SECONDS", "writes the table file so often (30)", NUMBER, LIVE, 0, AT(save), 1, UINT32_MAX},
    {"--port", "ADDRESS", "the port's address", ADDRESS, WITH_SETTINGS | WHY, WITH_SETTINGS, AT(settings.port), 0, 0},
    {"--inner", "ADDRESS", "the port's own inner address", ADDRESS, WITH_SETTINGS | WHY, WITH_SETTINGS, AT(settings.inner),
     0, 0},
    {"--nickname", "HEX", "the port's own nickname, 0001 to FFBF", NICKNAME, WITH_SETTINGS | WHY, WITH_SETTINGS,
     AT(settings.nickname), 0, 0xFFFF},
    {"--compact", "on|off", "whether the port takes Compact Format (off)", SWITCH, WITH_SETTINGS | WHY, 0,
     AT(settings.compact), 0, 0},
    {"--confidence", "N", "learning confidence, 0 to 255 (32)", NUMBER, WITH_SETTINGS | WHY, 0, AT(settings.confidence), 0,
     255},
    {"--seconds", "N", "learning seconds, 10 to 8191, or 0 for the default 1200 (0)", NUMBER, WITH_SETTINGS | WHY, 0,
     AT(settings.seconds), 0, 8191},
    {"--source", "ADDRESS", "the outer source, an individual address", ADDRESS, EXPAND | WRITE | INGRESS, EXPAND | INGRESS,
     AT(source), 0, 0},
    {"--to", "ADDRESS", "the outer destination; 01-80-C2-00-00-40 sets M", ADDRESS, INGRESS, INGRESS,
     AT(given.outer_destination), 0, 0},
    {"--egress", "HEX", "the egress nickname, 0001 to FFBF; the ingress nickname is the port's own", NICKNAME, INGRESS, INGRESS,
     AT(given.egress), 0, 0xFFFF},
    {"--hops", "N", "the hop count, 1 to 63 (63)", NUMBER, INGRESS, 0, AT(given.hop_count), 1, HOP_COUNT_MAX},
    {"--tag", "N", "writes an outer tag with this VLAN, 1 to 4094", NUMBER, EXPAND, 0, AT(tag), 1, 4094},
    {"--vlan", "N", "the label is this VLAN", NUMBER, WITH_PAIR, 0, AT(label), 0, 0xFFFF},
    {"--fgl", "N", "the label is this fine-grained label", NUMBER, WITH_PAIR, 0, AT(label), 0, 0xFFFFFF},
    {"--mac", "ADDRESS", "the address of a station", ADDRESS, WITH_PAIR, WITH_PAIR, AT(audience.mac), 0, 0},
    {"--nickname", "HEX", "the nickname that the address is behind, 0001 to FFBF", NICKNAME, SET, SET,
     AT(settings.nickname), 0, 0xFFFF},
    {"--confidence", "N", "the record's confidence, 0 to 255 (255)", NUMBER, SET, 0, AT(settings.confidence), 0, 255},
    {"--mac", "ADDRESS", "prints only the lines that concern this address", ADDRESS, RECEIVE | LIVE, 0,
     AT(audience.mac), 0, 0},
    {"--slot", "N", "the slot that is asked for, counted from 0", NUMBER, WHY, 0, AT(slot), 0, TABLE_SLOTS_MAX - 1},
    {"--mac", "ADDRESS", "the address that is asked for", ADDRESS, WHY, 0, AT(audience.mac), 0, 0},
    {"--vlan", "N", "of the address only the record with this VLAN", NUMBER, WHY, 0, AT(label), 0, 0xFFFF},
    {"--fgl", "N", "of the address only the record with this fine-grained label", NUMBER, WHY, 0, AT(label), 0, 0xFFFFFF},
    {"--hex", "DIGITS", "the payload of a flush in hexadecimal digits, in place of a capture", BYTES, WHY, 0, AT(digits), 0, 0},
    {"--hex", "DIGITS", "the payload of a Smart-Hello in hexadecimal digits", BYTES, HELLO, HELLO, AT(digits), 0, 0},
    {"--text", "FILE", "the contents, lines as `hello` prints them; - is standard input", TEXT, HELLO_WRITE, HELLO_WRITE,
     AT(text), 0, 0},
    {"--ingress", "HEX", "the ingress nickname of the flush of --hex", NICKNAME, WHY, 0, AT(ingress), 0, 0xFFFF},
    {"--by", "SECONDS", "the seconds that have passed, 0 to 65535", NUMBER, AGE, AGE, AT(by), 0, 65535},
    {"--no-ageing", NULL, "no time passes for the table", FLAG, RECEIVE | WHY, 0, AT(no_ageing), 0, 0},
    {"--dry-run", NULL, "the table file is read and not written", FLAG,
     RECEIVE | AGE | LIVE | SET | UNSET | WIDEN, 0, AT(dry_run), 0, 0},
    {"--nickname", "HEX", "a nickname whose addresses are to be forgotten; none: the sender's", NICKNAMES, WRITE, 0,
     AT(lists.nicknames), 2, 0xFFFF},
    {"--vlan", "A-B", "a block of VLANs, 1 to 4094", BLOCKS, WRITE, 0, AT(lists.vlans), 2, 0xFFFF},
    {"--fgl", "A-B", "a block of fine-grained labels", BLOCKS, WRITE, 0, AT(lists.fine), 4, 0xFFFFFFFF},
    {"--mac", "A-B", "a block of addresses; none: every address", MAC_BLOCKS, WRITE, 0, AT(lists.macs), 8, 0},
    {"--payload", "FILE", "the payload to write; replaced whole or not at all", TEXT, WRITE, 0, AT(payload), 0, 0},
    {"--ingress", "HEX", "the sender's nickname in the frame of --out", NICKNAME, WRITE, 0, AT(ingress), 0, 0xFFFF},
    {"--json", NULL, "a JSON object for each line, with the same facts", FLAG, WITH_ANY, 0, AT(json), 0, 0},
    {"--portion", "K", "flushes in portions of K slots, one after each frame, 1 to 4096", NUMBER, RECEIVE | LIVE, 0,
     AT(portion), 1, TABLE_SLOTS_MAX},
    {"--watch", "FILE", "the port's watch: `live` writes it, `send` goes by it", TEXT, LIVE | SEND, 0, AT(watch), 0, 0},
    {"--quiet", NULL, "no line for each frame", FLAG, WITH_CAPTURE | LIVE, 0, AT(quiet), 0, 0},
};
#define OPTION_COUNT (sizeof OPTIONS / sizeof OPTIONS[0])
/* A bit tells whether an option was given. */
typedef char options_have_bits[OPTION_COUNT <= 64 ? 1 : -1];

static const struct {
    enum command command;
    const char *name;
    const char *help;
    const char *more;
} COMMANDS[] = {
    {RECEIVE, "receive", "passes each frame of a capture to the receiver",
     "Prints a line for each frame: its time in UTC and what it was | the answer | what changed in the table, before ->\n"
     "after; then totals and the table. Of a flush the line tells what it means, of a corrupt one the byte of the payload,\n"
     "counted from 0, and the rule. Delivered native frames go to --out with their time stamps.\n"
     "The table ages by the whole seconds of the time stamps, never backwards; a line tells what became free. The second\n"
     "that it was aged to is kept in TABLE.aged, so that the next run goes on from there.\n"
     "Of a capture that is cut in its last record everything before that counts, and the status is 1. If anything else\n"
     "fails, the table file and --out stay as they were.\n"},
    {COMPACT, "compact", "compacts the General frames of a capture for a far port",
     "The settings are the far port's. Frames that may not be compacted are left out, and the line says why.\n"},
    {EXPAND, "expand", "expands the Compact frames of a capture for a far port",
     "The settings are the far port's. Frames that are refused are left out, and the line says why.\n"},
    {INGRESS, "ingress", "makes General frames of the native frames of a capture",
     "The settings and the map are those of the port at which the frames came in, each with an 8100 tag: its VLAN becomes\n"
     "the fine-grained label of the map. Frames that are refused are left out, and the line says why.\n"},
    {LOOKUP, "lookup", "tells the nickname that an address is behind",
     "One of --vlan and --fgl is needed. Exit status 1 if the address is not known.\n"},
    {AGE, "age", "lets seconds pass for the learned records of a table", ""},
    {CHECK, "check", "tells the lowest spoilt and the lowest free slot, and lists the records", "Exit status 1 if a slot is spoilt.\n"},
    {SET, "set", "makes a configured record in a table",
     "One of --vlan and --fgl is needed. The record takes the configured slot with that label and address, else the lowest\n"
     "with them, else the lowest free one; other learned records of label and address become free. Exit status 1 if there\n"
     "is no slot, 2 if the library would call the record spoilt.\n"},
    {UNSET, "unset", "removes a configured record from a table",
     "One of --vlan and --fgl is needed. Exit status 1 if there is no such record, or a learned one.\n"},
    {LIVE, "live", "passes the frames of a Linux interface to the receiver",
     "Needs CAP_NET_RAW. Listens only, in promiscuous mode, until --frames, --for, SIGINT, SIGTERM or SIGHUP; then writes\n"
     "the table and --out. The table is also written while it runs: every --save seconds, on SIGUSR1, and where the\n"
     "interface or standard output fails. It ages as time passes, first by the time since it was last aged. An interface\n"
     "that goes down is waited for. Output as for `receive`. Exit status 3 if frames were lost.\n"
     "With --watch a bridge BPDU, an LLDP notice of a bridge, router or station and a native frame stop compaction, and a\n"
     "line tells where a stop begins. An unexpected Hello is for whoever knows the adjacency to report.\n"},
    {WIDEN, "widen", "makes a table of records of 14 bytes one of 15",
     "For the tables of versions before 2026-12: each record gets a zero byte, and the second that the table was aged to\n"
     "stays. A file says its width by its length. Where both widths have that length (multiples of 210 bytes), a table of\n"
     "15 bytes has the line `shinglebar table 15` in front of its records; without it only `widen` takes the file.\n"},
    {REPORT, "report", "prints the morning report of a table",
     "A line for each nickname with learned or configured records, rising: four hexadecimal digits, learned count, configured\n"
     "count; then the free and the spoilt slots. It is what the program `morning_report` prints of the records. Exit status 1\n"
     "if the file is no table: its report is `refused 2`.\n"},
    {HELLO, "hello", "tells what the payload of a Smart-Hello says",
     "A line for the holding time and flags, one for each list of nicknames, of trees and of addresses, in the order of the\n"
     "payload for each kind. Exit status 1 if it is refused.\n"},
    {HELLO_WRITE, "hello-write", "writes the payload of a Smart-Hello from such lines",
     "Prints the payload in hexadecimal digits, as `hello --hex` takes it. The lines are those of `hello`, a sub-TLV each, in\n"
     "any order of the kinds; empty ones, and what follows a #, mean nothing:\n"
     "  holding time 30 s, flags 0000\n"
     "  nickname 1234, priority 64, tree root priority 32768; nickname 1235, priority 1, tree root priority 0\n"
     "  trees from 1: 1234 1235\n"
     "  VLAN 10, multihomed: 02-00-00-00-00-01 02-00-00-00-00-02\n"
     "  FGL 11259375: 02-00-00-00-00-03\n"
     "Exit status 1 if a line is in another form or they are refused: a number over its field, a list that no TLV holds, the\n"
     "holding time not there once.\n"},
    {SEND, "send", "sends the General frames of a capture out of a Linux interface",
     "Needs CAP_NET_RAW. The settings are the far port's: a frame is compacted where it may be, if --compact is on.\n"
     "While the watch of --watch has seconds left, which `live` on the same machine writes, no frame is compacted.\n"},
    {WRITE, "write", "writes an Address Flush from lists",
     "--nickname, --vlan, --fgl and --mac may be given up to 255 times each; a block is A-B, both ends included, or A alone.\n"
     "The payload goes to --payload, a General frame with it to all switches to the capture --out, which needs --source and\n"
     "--ingress. Exit status 2 if the lists cannot be written.\n"},
    {WHY, "why", "tells why a flush clears an address, or leaves it",
     "One of --slot and --mac is needed. With --hex and --ingress the flush is that payload; with a capture and the settings\n"
     "of its port the frames are read as `receive` does, and each flush is told of: the frame, and a sentence for each slot\n"
     "with the address; also where it aged. A cleared record's sentence names the nickname (listed, or the sender's), the\n"
     "VLAN block or TLV that brings the label, and the TLV that brings the MAC, the first of each; places count from 0, among\n"
     "the nicknames, the VLAN blocks or all TLVs. Another sentence names the first reason that a record stays. The table\n"
     "file is read and not written. Exit status 1 if no flush met a record that was asked for.\n"},
};
#define COMMAND_COUNT (sizeof COMMANDS / sizeof COMMANDS[0])

static void help_all(FILE *to)
{
    fputs("A port driver over the Shinglebar library.\n\n", to);
    for (size_t i = 0; i < COMMAND_COUNT; i++)
        fprintf(to, "  %s %-11s %s\n", PROGRAM, COMMANDS[i].name, COMMANDS[i].help);
    fprintf(to,
            "\n`%s help COMMAND` lists a command's options, `--version` tells the version.\n"
            "Exit status: 0 done, 1 bad data, a failing file or interface, or nothing found, 2 bad usage, 3 frames lost.\n",
            PROGRAM);
}

static void help_command(FILE *to, size_t index)
{
    unsigned command = COMMANDS[index].command;
    fprintf(to, "%s %s%s [OPTION VALUE].. : %s.\n%s\n", PROGRAM, COMMANDS[index].name,
            command & WITH_CAPTURE ? " CAPTURE" : command & MAY_HAVE_CAPTURE ? " [CAPTURE]" : "", COMMANDS[index].help, COMMANDS[index].more);
    for (size_t i = 0; i < OPTION_COUNT; i++) {
        const struct option *option = &OPTIONS[i];
        if (!(option->commands & command))
            continue;
        int used = fprintf(to, "  %s %s", option->name, option->value == NULL ? "" : option->value);
        fprintf(to, "%*s%s%s\n", used < 24 ? 24 - used : 1, "", option->help,
                option->required & command ? " [needed]" : "");
    }
    if (command & (WITH_CAPTURE | MAY_HAVE_CAPTURE))
        fputs("\nCAPTURE is a pcap or pcapng file of Ethernet frames without FCS; - is standard input.\n", to);
    if (command & WITH_TABLE & ~(LOOKUP | CHECK | WHY | REPORT))
        fputs("\nA table file is held while it is used: a second process is refused. It keeps owner, group and mode.\n", to);
    fputs("\nAn address is 02-00-00-00-00-01, with : or without marks too. A number is decimal, or hexadecimal after 0x.\n",
          to);
}

static int digit(char c)
{
    static const char DIGITS[] = "0123456789abcdef0123456789ABCDEF";
    const char *found = c == '\0' ? NULL : strchr(DIGITS, c);
    return found == NULL ? -1 : (int)((found - DIGITS) % 16);
}

/* A number of digits in a base, at most 2^48: 1, or 0 if the text is none. */
static int read_digits(const char *text, unsigned base, uint64_t *value)
{
    if (*text == '\0')
        return 0;
    for (*value = 0; *text != '\0'; text++) {
        int next = digit(*text);
        if (next < 0 || (unsigned)next >= base || *value >> 48 != 0)
            return 0;
        *value = *value * base + (unsigned)next;
    }
    return 1;
}

int read_number(const char *text, uint64_t *value)
{
    return strncmp(text, "0x", 2) == 0 ? read_digits(text + 2, 16, value) : read_digits(text, 10, value);
}

int read_hex(const char *text, uint64_t *value)
{
    return read_digits(strncmp(text, "0x", 2) == 0 ? text + 2 : text, 16, value);
}

int read_address(const char *text, uint64_t *value)
{
    char digits[13] = "";
    char mark = strlen(text) == 17 ? text[2] : '\0';
    if (strlen(text) != 12 && mark != '-' && mark != ':')
        return 0;
    for (int i = 0; i < 6; i++) {
        memcpy(digits + 2 * i, text, 2);
        text += 2;
        if (mark != '\0' && i < 5 && *text++ != mark)
            return 0;
    }
    return read_digits(digits, 16, value);
}

/* A block A-B, or A alone, of numbers or of addresses: 1, or 0 if the text is none. */
static int read_block(const char *text, int (*read)(const char *, uint64_t *), size_t first, uint64_t *start, uint64_t *end)
{
    char copy[40] = "";
    if (strlen(text) >= sizeof copy)
        return 0;
    strcpy(copy, text);
    if (copy[first] == '\0')
        return read(copy, start) && read(copy, end);
    copy[first] = '\0';
    return text[first] == '-' && read(copy, start) && read(copy + first + 1, end);
}

/* Two digits a byte, with blanks between bytes or none: 1, or 0 if the text is no such bytes. */
static int read_bytes(const char *text, struct payload *payload)
{
    for (payload->length = 0; *text != '\0'; text += 2) {
        while (*text == ' ')
            text++;
        if (*text == '\0')
            break;
        int high = digit(text[0]), low = digit(text[1]);
        if (high < 0 || low < 0 || payload->length == sizeof payload->bytes)
            return 0;
        payload->bytes[payload->length++] = (uint8_t)(high << 4 | low);
    }
    return 1;
}

static int take_block(const struct option *option, const char *text, struct list *list)
{
    uint64_t start, end;
    int macs = option->form == MAC_BLOCKS;
    size_t marked = strlen(text) == 35 || strlen(text) == 17 ? 17 : 12;
    size_t first = macs ? (strlen(text) < marked ? 0 : marked) : strcspn(text, "-");
    if (!read_block(text, macs ? read_address : read_number, first, &start, &end)
        || (!macs && (start > option->most || end > option->most)))
        return bad_usage("%s takes a block A-B, not `%s`", option->name, text);
    list_put(list, start, option->least);
    list_put(list, end, option->least);
    return 0;
}

static int take_value(const struct option *option, const char *text, struct options *options)
{
    void *place = (char *)options + option->place;
    uint64_t value = 0;
    switch (option->form) {
    case TEXT:
        if (*text == '\0')
            return bad_usage("%s is empty", option->name);
        *(const char **)place = text;
        return 0;
    case FLAG:
        *(int *)place = 1;
        return 0;
    case SWITCH:
        if (strcmp(text, "on") != 0 && strcmp(text, "off") != 0)
            return bad_usage("%s takes on or off, not `%s`", option->name, text);
        *(uint32_t *)place = strcmp(text, "on") == 0;
        return 0;
    case R_BIT:
        if (strcmp(text, "first") != 0 && strcmp(text, "second") != 0)
            return bad_usage("%s takes first or second, not `%s`", option->name, text);
        value = strcmp(text, "first") == 0 ? 1 : 2;
        break;
    case ADDRESS:
        if (!read_address(text, (uint64_t *)place))
            return bad_usage("%s takes an address such as 02-00-00-00-00-01, not `%s`", option->name, text);
        return 0;
    case BYTES:
        return read_bytes(text, (struct payload *)place)
                   ? 0
                   : bad_usage("%s takes two hexadecimal digits for each byte, not `%s`", option->name, text);
    case BLOCKS:
    case MAC_BLOCKS:
        return take_block(option, text, (struct list *)place);
    case NICKNAMES:
    case NICKNAME:
        if (!read_hex(text, &value) || value > option->most)
            return bad_usage("%s takes up to four hexadecimal digits, not `%s`", option->name, text);
        if (option->form == NICKNAMES)
            return list_put((struct list *)place, value, option->least), 0;
        break;
    case NUMBER:
        if (!read_number(text, &value) || value < option->least || value > option->most)
            return bad_usage("%s takes a number from %lu to %lu, not `%s`", option->name, (unsigned long)option->least,
                             (unsigned long)option->most, text);
        break;
    }
    *(uint32_t *)place = (uint32_t)value;
    return 0;
}

/* The option of a command that a word names, up to an equals sign; OPTION_COUNT if there is none. */
static size_t find_option(const char *word, unsigned command)
{
    size_t length = strcspn(word, "=");
    for (size_t i = 0; i < OPTION_COUNT; i++) {
        int named = strlen(OPTIONS[i].name) == length && strncmp(OPTIONS[i].name, word, length) == 0;
        if (named && OPTIONS[i].commands & command)
            return i;
    }
    return OPTION_COUNT;
}

/* The option named in words[*at], with its value behind it or behind an equals sign. */
static int read_option(int count, char **words, int *at, uint64_t *given, struct options *options)
{
    const char *word = words[*at], *value = strchr(word, '=');
    size_t index = find_option(word, options->command);
    if (index == OPTION_COUNT)
        return bad_usage("`%s` is no option of this command; try --help", word);
    const struct option *option = &OPTIONS[index];
    if (*given & BIT(index) && option->form < NICKNAMES)
        return bad_usage("%s is given twice", option->name);
    *given |= BIT(index);
    if (option->form == FLAG)
        return value == NULL ? take_value(option, "", options) : bad_usage("%s takes no value", option->name);
    if (value == NULL && *at + 1 == count)
        return bad_usage("%s needs a value: %s", option->name, option->value);
    return take_value(option, value == NULL ? words[++*at] : value + 1, options);
}

/* Whether the settings are in their ranges is the library's to say: it is asked with a frame of no bytes. */
static int check_settings(const struct shinglebar_settings *settings)
{
    uint8_t free_slot[SHINGLEBAR_RECORD_LENGTH] = {0}, out = 0;
    uint64_t answer = shinglebar_receive_any(settings, NULL, 0, free_slot, sizeof free_slot, &out, 1);
    if (answer != SHINGLEBAR_REFUSAL_SETTINGS)
        return 0;
    return bad_usage("settings outside their ranges: --port and --inner are different individual addresses, --nickname is "
                     "0001 to FFBF, --seconds is 0 or 10 to 8191");
}

static int is_given(uint64_t given, const char *name, unsigned command)
{
    return (given & BIT(find_option(name, command))) != 0;
}

/* What is asked for, and of which flush. */
static int check_why(uint64_t given, struct options *options)
{
    int vlan = is_given(given, "--vlan", WHY), fgl = is_given(given, "--fgl", WHY), hex = is_given(given, "--hex", WHY);
    options->has_slot = is_given(given, "--slot", WHY);
    options->has_label = vlan || fgl;
    options->audience.is_one = is_given(given, "--mac", WHY);
    options->kind = fgl ? SHINGLEBAR_LABEL_FINE_GRAINED : SHINGLEBAR_LABEL_VLAN;
    if (options->has_slot == options->audience.is_one)
        return bad_usage("one of --slot and --mac is needed");
    if (vlan && fgl)
        return bad_usage("--vlan and --fgl are two labels");
    if (options->has_label && options->has_slot)
        return bad_usage("--vlan and --fgl go with --mac");
    if (hex == (options->capture != NULL))
        return bad_usage("one of a capture and --hex is needed");
    if (hex != is_given(given, "--ingress", WHY))
        return bad_usage("--hex and --ingress go together");
    if (hex)
        return 0;
    if (same_file(options->table, options->capture))
        return bad_usage("the capture and --table are different files");
    return check_settings(&options->settings);
}

static int check_options(uint64_t given, struct options *options)
{
    uint64_t vlan = BIT(find_option("--vlan", WITH_PAIR)), fgl = BIT(find_option("--fgl", WITH_PAIR));
    for (size_t i = 0; i < OPTION_COUNT; i++)
        if (OPTIONS[i].required & options->command && !(given & BIT(i)))
            return bad_usage("%s %s is needed; try --help", OPTIONS[i].name, OPTIONS[i].value);
    if (options->command & WITH_CAPTURE && options->capture == NULL)
        return bad_usage("no capture is named; try --help");
    if (options->command & WITH_PAIR && !(given & vlan) == !(given & fgl))
        return bad_usage("one of --vlan and --fgl is needed");
    options->kind = given & fgl ? SHINGLEBAR_LABEL_FINE_GRAINED : SHINGLEBAR_LABEL_VLAN;
    options->tagged = options->tag != 0;
    if (is_standard(options->table))
        return bad_usage("--table is a file, not standard input or output");
    if (is_standard(options->watch))
        return bad_usage("--watch is a file, not standard input or output");
    options->audience.is_one = options->command & (RECEIVE | LIVE) && (given & BIT(find_option("--mac", RECEIVE))) != 0;
    if (options->command == WRITE && options->payload == NULL && options->out == NULL)
        return bad_usage("one of --payload and --out is needed");
    if (options->command == WRITE && options->out != NULL && (options->source == 0 || options->ingress == 0))
        return bad_usage("--out needs --source and --ingress");
    if (options->source >> 40 & 1)
        return bad_usage("--source is a group address");
    if (same_file(options->map, options->out) || same_file(options->map, options->table)
        || same_file(options->map, options->capture))
        return bad_usage("--map is a file of its own");
    options->given.outer_source = options->source;
    options->given.ingress = options->settings.nickname;
    options->given.m = options->given.outer_destination == ALL_RBRIDGES;
    int status = options->command & WITH_SETTINGS ? check_settings(&options->settings) : 0;
    if (options->command == WHY)
        status = check_why(given, options);
    return status == 0 && options->map != NULL ? map_read(options->map, &options->settings) : status;
}

/* The place of a command by its name; COMMAND_COUNT if there is none. */
static size_t find_command(const char *name)
{
    size_t command = 0;
    while (command < COMMAND_COUNT && strcmp(name, COMMANDS[command].name) != 0)
        command++;
    return command;
}

static int is_help(const char *word)
{
    return strcmp(word, "--help") == 0 || strcmp(word, "-h") == 0;
}

/* What needs no command: -1 if the words name one, else the exit status. */
static int read_general(int count, char **words)
{
    if (count < 2)
        return help_all(stderr), bad_usage("no command is given");
    if (strcmp(words[1], "--version") == 0)
        return printf("%s %s\n", PROGRAM, SHINGLEBAR_VERSION), 0;
    int help = strcmp(words[1], "help") == 0;
    const char *named = help && count > 2 ? words[2] : words[1];
    if (is_help(words[1]) || (help && (count == 2 || is_help(named))))
        return help_all(stdout), 0;
    size_t command = find_command(named);
    if (command == COMMAND_COUNT)
        return bad_usage("`%s` is no command; try --help", named);
    return help ? (help_command(stdout, command), 0) : -1;
}

/* The words behind the command: -1, or the exit status. */
static int read_words(int count, char **words, uint64_t *given, struct options *options)
{
    for (int at = 2; at < count; at++) {
        int status = 0;
        if (is_help(words[at]))
            return help_command(stdout, find_command(words[1])), 0;
        if (words[at][0] == '-' && !is_standard(words[at]))
            status = read_option(count, words, &at, given, options);
        else if (options->capture != NULL || !(options->command & (WITH_CAPTURE | MAY_HAVE_CAPTURE)))
            status = bad_usage("`%s` is one word too many; try --help", words[at]);
        else
            options->capture = words[at];
        if (status != 0)
            return status;
    }
    return -1;
}

int options_read(int count, char **words, struct options *options)
{
    const struct options nothing = {0};
    uint64_t given = 0;
    int status = read_general(count, words);
    if (status >= 0)
        return status;
    *options = nothing;
    options->command = COMMANDS[find_command(words[1])].command;
    options->settings.confidence = options->command == SET ? SET_CONFIDENCE : RFC6325_CONFIDENCE;
    options->save = SAVE_SECONDS;
    options->given.hop_count = HOP_COUNT_MAX;
    status = read_words(count, words, &given, options);
    if (status >= 0)
        return status;
    status = check_options(given, options);
    return status == 0 ? -1 : status;
}
