/*
 * The form of an input of the fuzz target.
 *
 * An input is a call: the numbers are those of docs/REPLAY.md, most significant byte first.
 *
 *   1 byte    selector: low three bits, and bits 5 to 7 above them, the call (0 send, 1 receive, 2 flush, 3 age,
 *             4 lookup, 5 spoilt, 6 compact, 7 expand, 8 receive_port, 9 ingress, 10 widen, 11 write_flush,
 *             12 free_slot; of a number above, the low three bits); bit 3 the side of the areas that touches memory
 *             which cannot be accessed;
 *             bit 4 says that settings, outer source, tag and table length are taken as they are, else they
 *             are first brought into their ranges, where few random numbers are
 *   numbers   receive, compact, send: settings (32), length of the output or working area (2)
 *             expand: settings (32), outer source (8), tagged (4), tag (4), length of the output area (2)
 *             widen: length of the output area (2)
 *             receive_port: settings (32), multihomed (4), smart (4), length of the output area (2)
 *             ingress: settings (32), outer destination (8), outer source (8), M (4), hop count (4), egress (4) and
 *             ingress nickname (4), length of the output area (2)
 *             flush: ingress nickname (4); age: seconds (2); lookup: label kind (4), label (4), address (8)
 *             write_flush: lengths of the nicknames, the VLAN blocks and the fine-grained blocks (2 each), length
 *             of the output area (2); then the three lists, and the MAC blocks as the rest
 *   map       length (2) and bytes; for receive_port and ingress alone
 *   table     length (2) and bytes; not for compact, expand, send, ingress, widen and write_flush
 *   the rest  the frame, payload or older table; for age, lookup, spoilt and free_slot it is left over
 *
 * Bytes that are missing in a number are 0; a map or table ends where the input ends. So every input is a call.
 */
#ifndef SHINGLEBAR_FUZZ_INPUT_H
#define SHINGLEBAR_FUZZ_INPUT_H

#include <stddef.h>

enum call {
    SEND,
    RECEIVE,
    FLUSH,
    AGE,
    LOOKUP,
    SPOILT,
    COMPACT,
    EXPAND,
    RECEIVE_PORT,
    INGRESS,
    WIDEN,
    WRITE,
    FREE_SLOT,
    CALLS
};

static inline enum call call_of(unsigned selector)
{
    unsigned number = (selector & 7) | (selector >> 5 & 7) << 3;
    return (enum call)(number < CALLS ? number : number & 7);
}

static inline int has_map(enum call call)
{
    return call == RECEIVE_PORT || call == INGRESS;
}

static inline int has_table(enum call call)
{
    return call != COMPACT && call != EXPAND && call != SEND && call != INGRESS && call != WIDEN && call != WRITE;
}

/* The bytes of a call's numbers. */
static inline size_t numbers_length(enum call call)
{
    switch (call) {
    case RECEIVE:
    case COMPACT:
    case SEND:
        return 32 + 2;
    case EXPAND:
        return 32 + 8 + 4 + 4 + 2;
    case WIDEN:
        return 2;
    case RECEIVE_PORT:
        return 32 + 4 + 4 + 2;
    case INGRESS:
        return 32 + 8 + 8 + 4 * 4 + 2;
    case FLUSH:
        return 4;
    case AGE:
        return 2;
    case LOOKUP:
        return 4 + 4 + 8;
    case WRITE:
        return 2 + 2 + 2 + 2;
    default:
        return 0;
    }
}

#endif
