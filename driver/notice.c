#include "notice.h"

#include "shinglebar.h"

#define ADDRESSES_BYTES 12
#define TYPE_BYTES 2

/* Destinations: 01-80-C2-00-00-00 to 0F and 21 are bridges', :40 to :4F TRILL's. */
#define BRIDGE_GROUP 0x0180C2000000u
#define BRIDGE_GROUP_LAST 0x0180C200000Fu
#define VLAN_REGISTRATION 0x0180C2000021u
#define TRILL_GROUP 0x0180C2000040u
#define TRILL_GROUP_LAST 0x0180C200004Fu

/* Ethertypes. */
#define TAG 0x8100
#define FINE_LABEL 0x893B
#define TRILL 0x22F3
#define L2_ISIS 0x22F4
#define CHANNEL 0x8946
#define LLDP 0x88CC

/* A BPDU follows a length and the LLC header 42 42 03; its Hello Time stands at byte 31 of those that have one. */
#define LLC_BYTES 3
#define HELLO_TIME_OFFSET 31
#define BPDU_TYPE_OFFSET 3
#define TOPOLOGY_CHANGE 0x80

/* TLVs of LLDP: 7 bits type, 9 bits length. Of the capabilities enabled: MAC bridge, router, station only. */
#define LLDP_TTL 3
#define LLDP_CAPABILITIES 7
#define SHARED_CAPABILITIES (0x0004u | 0x0010u | 0x0080u)

/* Two bytes at an offset, or 0 where the frame ends before. */
static unsigned two(const uint8_t *bytes, size_t length, size_t at)
{
    return at + 2 <= length ? (unsigned)bytes[at] << 8 | bytes[at + 1] : 0u;
}

static uint64_t destination(const uint8_t *bytes)
{
    uint64_t address = 0;
    int i;
    for (i = 0; i < 6; i++)
        address = address << 8 | bytes[i];
    return address;
}

/* Whether an LLDP message names a bridge, a router or a station, with its TTL. */
static int lldp_read(const uint8_t *bytes, size_t length, size_t at, uint16_t *time)
{
    int shared = 0;
    *time = 0;
    while (at + 2 <= length) {
        unsigned head = two(bytes, length, at), type = head >> 9;
        size_t size = head & 0x1FF;
        at += 2;
        if (type == 0 || at + size > length)
            break;
        if (type == LLDP_TTL && size >= 2)
            *time = (uint16_t)two(bytes, length, at);
        if (type == LLDP_CAPABILITIES && size >= 4)
            shared = (two(bytes, length, at + 2) & SHARED_CAPABILITIES) != 0;
        at += size;
    }
    return shared;
}

static int is_bpdu(const uint8_t *bytes, size_t length)
{
    size_t at = ADDRESSES_BYTES + TYPE_BYTES;
    return two(bytes, length, ADDRESSES_BYTES) <= 1500 && at + LLC_BYTES <= length && bytes[at] == 0x42
           && bytes[at + 1] == 0x42 && bytes[at + 2] == 0x03;
}

/* The Hello Time of a BPDU; 0 where it has none. */
static uint16_t hello_time(const uint8_t *bytes, size_t length)
{
    size_t at = ADDRESSES_BYTES + TYPE_BYTES + LLC_BYTES;
    if (at + BPDU_TYPE_OFFSET >= length || bytes[at + BPDU_TYPE_OFFSET] == TOPOLOGY_CHANGE)
        return 0;
    return (uint16_t)two(bytes, length, at + HELLO_TIME_OFFSET);
}

/* Where the Ethertype of the payload stands, behind tags and labels. */
static size_t payload_type(const uint8_t *bytes, size_t length)
{
    size_t at = ADDRESSES_BYTES;
    while (two(bytes, length, at) == TAG || two(bytes, length, at) == FINE_LABEL)
        at += 4;
    return at;
}

int notice_read(const uint8_t *bytes, size_t length, uint16_t *time)
{
    uint64_t to;
    unsigned type;
    *time = 0;
    if (length < ADDRESSES_BYTES + TYPE_BYTES)
        return -1;
    to = destination(bytes);
    type = two(bytes, length, payload_type(bytes, length));
    if (type == LLDP)
        return lldp_read(bytes, length, payload_type(bytes, length) + TYPE_BYTES, time) ? SHINGLEBAR_EVENT_LLDP_NOTICE : -1;
    if (to == BRIDGE_GROUP && is_bpdu(bytes, length)) {
        *time = hello_time(bytes, length);
        return SHINGLEBAR_EVENT_BRIDGE_BPDU;
    }
    if ((to >= BRIDGE_GROUP && to <= BRIDGE_GROUP_LAST) || to == VLAN_REGISTRATION)
        return -1;
    if ((to >= TRILL_GROUP && to <= TRILL_GROUP_LAST) || type == TRILL || type == L2_ISIS || type == CHANNEL)
        return -1;
    return SHINGLEBAR_EVENT_NATIVE_FRAME;
}

const char *notice_words(int kind)
{
    switch (kind) {
    case SHINGLEBAR_EVENT_NATIVE_FRAME:
        return "a native frame";
    case SHINGLEBAR_EVENT_UNEXPECTED_HELLO:
        return "an unexpected Hello";
    case SHINGLEBAR_EVENT_BRIDGE_BPDU:
        return "a bridge BPDU";
    case SHINGLEBAR_EVENT_LLDP_NOTICE:
        return "an LLDP notice";
    }
    return "nothing";
}
