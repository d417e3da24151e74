/*
 * The smallest port that works. Each line of standard input is an Ethernet frame that comes in, without
 * FCS, as hexadecimal digits; a line of standard output says what became of it, with the native frame
 * where one is delivered. From the root of the repository:
 *
 *     cc -Iinclude examples/port.c target/staticlib/libshinglebar.a -o port
 */
#include <ctype.h>
#include <stdio.h>
#include <time.h>

#include "shinglebar.h"

/* Port address, own inner address, own nickname, Compact on, confidence, seconds (0: the default 1200). */
#define SETTINGS 0x0200000000A1, 0x0200000000B1, 0x0102, 1, 32, 0
#define SLOTS 1024

/* Zeros: every slot is free. */
static uint8_t table[SLOTS * SHINGLEBAR_RECORD_LENGTH];

/* A line as a frame; what is no digit is skipped. One byte more than a frame may have is kept, so that
 * the library refuses what is too long. 0 at the end of the input. */
static int read_frame(uint8_t *frame, size_t *length)
{
    unsigned digits = 0, value = 0;
    int c;
    *length = 0;
    while ((c = getchar()) != EOF && c != '\n') {
        if (!isxdigit(c))
            continue;
        value = value << 4 | (unsigned)(isdigit(c) ? c - '0' : toupper(c) - 'A' + 10);
        if (++digits % 2 == 0 && *length <= SHINGLEBAR_FRAME_LENGTH_MAX)
            frame[(*length)++] = (uint8_t)(value & 0xFF);
    }
    return c != EOF || digits > 0;
}

/* The table ages by the seconds since it last did; a clock that was set back does not make it younger. */
static void age(void)
{
    static time_t last = 0;
    time_t now = time(NULL);
    if (last != 0 && now > last)
        shinglebar_age((uint16_t)(now - last < 65535 ? now - last : 65535), table, sizeof table);
    last = now;
}

static void deliver(uint64_t result, const uint8_t *native)
{
    size_t at;
    printf("delivered to %s %lu:", shinglebar_label_kind(result) == SHINGLEBAR_LABEL_VLAN ? "VLAN" : "FGL",
           (unsigned long)shinglebar_label(result));
    for (at = 0; at < shinglebar_native_length(result); at++)
        printf(" %02X", native[at]);
    printf("\n");
}

int main(void)
{
    static uint8_t frame[SHINGLEBAR_FRAME_LENGTH_MAX + 1];
    static uint8_t native[SHINGLEBAR_FRAME_LENGTH_MAX];
    size_t length;
    while (read_frame(frame, &length)) {
        uint64_t result;
        age();
        result = shinglebar_receive(SETTINGS, frame, length, table, sizeof table, native, sizeof native);
        switch (shinglebar_kind(result)) {
        case SHINGLEBAR_RECEIVE_DELIVERED:
            deliver(result, native);
            break;
        case SHINGLEBAR_RECEIVE_ONWARD:
            /* for another switch: the frame as it came in goes to whatever forwards */
            printf("onward\n");
            break;
        case SHINGLEBAR_RECEIVE_OTHER_CHANNEL:
            /* for another protocol of RFC 7178 */
            printf("other channel\n");
            break;
        case SHINGLEBAR_RECEIVE_FLUSHED:
            printf("flushed, %u cleared\n", shinglebar_count(result));
            break;
        default:
            printf("refused %u: %s\n", shinglebar_refusal(result), shinglebar_refusal_string(result));
        }
    }
    return 0;
}
