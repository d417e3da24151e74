/* What the driver reads of a link from a frame (driver/notice.c), and a watch through the header. Compiled as C and as C++. */
#include <string.h>

#include "../../driver/notice.c"
#include "expect.h"

static uint8_t frame[64];

/* A frame of hexadecimal digits, zeros behind them; its time or, for none, 99999. */
static unsigned long seen(const char *digits, size_t length, int kind)
{
    static const char DIGITS[] = "0123456789ABCDEF";
    uint16_t time;
    size_t at;
    memset(frame, 0, sizeof frame);
    for (at = 0; digits[2 * at] != '\0'; at++)
        frame[at] = (uint8_t)((strchr(DIGITS, digits[2 * at]) - DIGITS) << 4 | (strchr(DIGITS, digits[2 * at + 1]) - DIGITS));
    return notice_read(frame, length, &time) == kind ? time : 99999;
}

#define BPDU "0180C2000000" "020000000009" "0026" "424203" "0000" "00"
#define IDS "00" "8000020000000009" "00000000" "8000020000000009" "8001" "0000" "1400"
#define LLDP_MESSAGE "0180C2000000" "020000000009" "88CC" "0207" "04020000000009" "0403" "050131" "0602" "0078"

int main(void)
{
    const struct shinglebar_settings far = {0x0200000000A1u, 0x0200000000B1u, 0x0102, 1, 20, 0, 0, 0, NULL, 0};
    struct shinglebar_watch watch = {0, 0};
    uint64_t result;

    expect("configuration BPDU", seen(BPDU "00" IDS "0281" "0F00", 60, SHINGLEBAR_EVENT_BRIDGE_BPDU), 641);
    expect("rapid BPDU", seen(BPDU "02" IDS "0200" "0F00", 60, SHINGLEBAR_EVENT_BRIDGE_BPDU), 512);
    expect("cut BPDU", seen(BPDU "00" IDS "0281", 49, SHINGLEBAR_EVENT_BRIDGE_BPDU), 0);
    expect("topology change", seen(BPDU "80", 60, SHINGLEBAR_EVENT_BRIDGE_BPDU), 0);
    expect("no BPDU", seen("0180C2000000" "020000000009" "0003" "AAAA03", 60, -1), 0);
    expect("LLDP of a bridge", seen(LLDP_MESSAGE "0E04" "0004" "0004" "0000", 60, SHINGLEBAR_EVENT_LLDP_NOTICE), 120);
    expect("LLDP of a router", seen(LLDP_MESSAGE "0E04" "0014" "0010", 60, SHINGLEBAR_EVENT_LLDP_NOTICE), 120);
    expect("LLDP of a station", seen(LLDP_MESSAGE "0E04" "0080" "0080", 60, SHINGLEBAR_EVENT_LLDP_NOTICE), 120);
    expect("LLDP, capability off", seen(LLDP_MESSAGE "0E04" "0004" "0000", 60, -1), 120);
    expect("LLDP without capabilities", seen(LLDP_MESSAGE "0000", 60, -1), 120);
    expect("native", seen("FFFFFFFFFFFF" "020000000009" "0806" "0001", 60, SHINGLEBAR_EVENT_NATIVE_FRAME), 0);
    expect("native with a tag", seen("020000000001" "020000000009" "8100000A" "0800", 60, SHINGLEBAR_EVENT_NATIVE_FRAME), 0);
    expect("General", seen("0200000000A1" "0200000000B2" "22F3" "000501021234", 60, -1), 0);
    expect("Compact", seen("02000000000D" "020000000001" "8100000A" "22F3" "000501021234", 60, -1), 0);
    expect("Compact, fine-grained", seen("02000000000D" "020000000001" "893B0123893B0456" "22F3", 60, -1), 0);
    expect("Hello", seen("0180C2000041" "0200000000B2" "22F4", 60, -1), 0);
    expect("channel", seen("0200000000A1" "0200000000B2" "8946", 60, -1), 0);
    expect("bridge group", seen("0180C200000E" "020000000009" "8809", 60, -1), 0);
    expect("VLAN registration", seen("0180C2000021" "020000000009" "0800", 60, -1), 0);
    expect("short", seen("FFFFFFFFFFFF" "020000000009" "08", 13, -1), 0);
    expect("words", strcmp(notice_words(SHINGLEBAR_EVENT_BRIDGE_BPDU), "a bridge BPDU") == 0, 1);

    result = shinglebar_watch_event(&watch, 5, SHINGLEBAR_EVENT_LLDP_NOTICE, 65535);
    expect("kind", shinglebar_kind(result), SHINGLEBAR_WATCH_LEFT);
    expect("seconds left", shinglebar_seconds_left(result), 131070);
    expect("stopped", watch.left, 131070);
    expect("unknown kind", shinglebar_watch_event(&watch, 6, 4, 0), 1);
    expect("as it was", watch.reading, 5);
    expect("send with NULL", shinglebar_send_watched_any(&far, &watch, 9, NULL, 0, NULL, 0), 16);
    expect("a second less", shinglebar_seconds_left(shinglebar_watch_tick(&watch, 6)), 131069);
    expect("reset", shinglebar_seconds_left(shinglebar_watch_reset(&watch, 7)), 0);
    expect("the reading", watch.reading, 7);
    return failures == 0 ? 0 : 1;
}
