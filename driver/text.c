#define _POSIX_C_SOURCE 200809L
#include "text.h"

#include <stdio.h>
#include <string.h>
#include <time.h>

#include "shinglebar.h"

#define NUMBER_DIGITS 20
#define MOMENT_ROOM 32

static void add(struct text *to, const char *bytes, size_t length)
{
    if (length > TEXT_ROOM - to->length)
        length = TEXT_ROOM - to->length;
    memcpy(to->bytes + to->length, bytes, length);
    to->length += length;
}

void text_put(struct text *to, const char *words)
{
    add(to, words, strlen(words));
}

/* A number with at least so many digits. */
static void add_number(struct text *to, uint64_t number, int least)
{
    char digits[NUMBER_DIGITS];
    int at = NUMBER_DIGITS;
    while (number != 0 || NUMBER_DIGITS - at < least) {
        digits[--at] = (char)('0' + number % 10);
        number /= 10;
    }
    add(to, digits + at, (size_t)(NUMBER_DIGITS - at));
}

void text_number(struct text *to, uint64_t number)
{
    add_number(to, number, 1);
}

void text_hex(struct text *to, uint64_t number, int digits)
{
    static const char DIGITS[] = "0123456789ABCDEF";
    char made[16];
    for (int i = 0; i < digits; i++)
        made[i] = DIGITS[number >> (4 * (digits - 1 - i)) & 0xF];
    add(to, made, (size_t)digits);
}

void text_address(struct text *to, uint64_t address)
{
    for (int shift = 40; shift >= 0; shift -= 8) {
        text_hex(to, address >> shift & 0xFF, 2);
        if (shift > 0)
            text_put(to, "-");
    }
}

static const char *kind_name(unsigned kind)
{
    return kind == SHINGLEBAR_LABEL_VLAN ? "VLAN" : "FGL";
}

void text_label(struct text *to, unsigned kind, uint32_t label)
{
    text_put(to, kind_name(kind));
    text_put(to, " ");
    text_number(to, label);
}

void text_time(struct text *to, uint64_t seconds, uint32_t fraction, int digits)
{
    /* Most lines are of the second of the line before. */
    static char moment[MOMENT_ROOM] = "";
    static uint64_t last = 0;
    if (moment[0] == '\0' || seconds != last) {
        time_t when = (time_t)seconds;
        struct tm parts;
        if (gmtime_r(&when, &parts) == NULL || strftime(moment, sizeof moment, "%Y-%m-%dT%H:%M:%S", &parts) == 0)
            snprintf(moment, sizeof moment, "second %llu", (unsigned long long)seconds);
        last = seconds;
    }
    text_put(to, moment);
    if (digits > 0) {
        text_put(to, ".");
        add_number(to, fraction, digits);
    }
    text_put(to, "Z");
}

static void name_put(struct text *to, const char *name)
{
    char last = to->length == 0 ? '{' : to->bytes[to->length - 1];
    if (last != '{' && last != '[')
        text_put(to, ",");
    if (name == NULL)
        return;
    text_put(to, "\"");
    text_put(to, name);
    text_put(to, "\":");
}

void json_open(struct text *to, const char *name, const char *bracket)
{
    name_put(to, name);
    text_put(to, bracket);
}

void json_close(struct text *to, const char *bracket)
{
    text_put(to, bracket);
}

void json_quote(struct text *to, const char *name)
{
    name_put(to, name);
    text_put(to, "\"");
}

void json_unquote(struct text *to)
{
    text_put(to, "\"");
}

/* File and interface names are the only words that are not our own. */
void json_words(struct text *to, const char *name, const char *words)
{
    json_quote(to, name);
    for (; *words != '\0'; words++) {
        unsigned char byte = (unsigned char)*words;
        if (byte < 0x20) {
            text_put(to, "\\u");
            text_hex(to, byte, 4);
        } else {
            if (byte == '"' || byte == '\\')
                text_put(to, "\\");
            add(to, words, 1);
        }
    }
    json_unquote(to);
}

void json_number(struct text *to, const char *name, uint64_t number)
{
    name_put(to, name);
    text_number(to, number);
}

void json_truth(struct text *to, const char *name, int truth)
{
    name_put(to, name);
    text_put(to, truth ? "true" : "false");
}

void json_hex(struct text *to, const char *name, uint64_t number, int digits)
{
    json_quote(to, name);
    text_hex(to, number, digits);
    json_unquote(to);
}

void json_address(struct text *to, const char *name, uint64_t address)
{
    json_quote(to, name);
    text_address(to, address);
    json_unquote(to);
}

void json_label(struct text *to, unsigned kind, uint32_t label)
{
    json_words(to, "label_kind", kind_name(kind));
    json_number(to, "label", label);
}

void json_time(struct text *to, uint64_t seconds, uint32_t fraction, int digits)
{
    json_quote(to, "time");
    text_time(to, seconds, fraction, digits);
    json_unquote(to);
}
