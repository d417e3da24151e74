/* A line in the making, in words or as a JSON object. It is made in memory and goes out whole: a line for each frame costs about what
 * the call costs. */
#ifndef TEXT_H
#define TEXT_H

#include <stddef.h>
#include <stdint.h>

/* More than the longest line, the digits of a payload as long as a frame: lists are cut to a few of their parts. What does not fit is
 * left out. */
#define TEXT_ROOM 20480

struct text {
    int json;
    size_t length;
    char bytes[TEXT_ROOM];
};

/* Adds words, a decimal number, one of so many hexadecimal digits, an address, and a label. */
void text_put(struct text *to, const char *words);
void text_number(struct text *to, uint64_t number);
void text_hex(struct text *to, uint64_t number, int digits);
void text_address(struct text *to, uint64_t address);
void text_label(struct text *to, unsigned kind, uint32_t label);

/* Adds a moment of UTC, with so many digits of a fraction of the second. */
void text_time(struct text *to, uint64_t seconds, uint32_t fraction, int digits);

/* Opens and closes an object or a list, by its bracket; adds a value. A name is NULL in a list. Commas come by themselves. */
void json_open(struct text *to, const char *name, const char *bracket);
void json_close(struct text *to, const char *bracket);
void json_words(struct text *to, const char *name, const char *words);
void json_number(struct text *to, const char *name, uint64_t number);
void json_truth(struct text *to, const char *name, int truth);
void json_hex(struct text *to, const char *name, uint64_t number, int digits);
void json_address(struct text *to, const char *name, uint64_t address);
void json_label(struct text *to, unsigned kind, uint32_t label);
void json_time(struct text *to, uint64_t seconds, uint32_t fraction, int digits);

/* Brackets words that are added in between as a value. */
void json_quote(struct text *to, const char *name);
void json_unquote(struct text *to);

#endif
