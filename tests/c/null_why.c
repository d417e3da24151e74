/* The inline call of why with NULL, and the decoders of its answer. Compiled as C and as C++. */
#include "shinglebar.h"

#include "expect.h"

int main(void)
{
    const uint8_t table[SHINGLEBAR_RECORD_LENGTH] = {0x40, 0x00, 0x01, 0x40, 0x40, 0x00, 0x00,
                                                     0x00, 0x00, 0x22, 0x46, 0x82, 0x81, 0x2C};
    /* Two nicknames; two blocks, the VLANs 20 to 29 and 10 to 12. */
    const uint8_t blocks[14] = {0x02, 0x56, 0x78, 0x12, 0x34, 0x02, 0x00, 0x14, 0x00, 0x1D, 0x00, 0x0A, 0x00, 0x0C};
    /* The sender; a skipped TLV, a MAC, all labels. */
    const uint8_t tlvs[14] = {0x00, 0x00, 0x09, 0x00, 0x07, 0x06, 0x02, 0x00, 0x00, 0x00, 0x00, 0x01, 0x06, 0x00};
    uint64_t highest = ~UINT64_C(0) ^ (UINT64_C(1) << 62);
    uint64_t why;

    expect("both NULL", shinglebar_why_any(0x1234, NULL, 0, 0, NULL, 0), 2);
    expect("table NULL", shinglebar_why_any(0x1234, tlvs, sizeof tlvs, 0, NULL, 0), 2);
    expect("payload NULL", shinglebar_why_any(0x1234, NULL, 0, 0, table, sizeof table), 15);
    expect("slot 1", shinglebar_why_any(0x1234, NULL, 0, 1, table, sizeof table), SHINGLEBAR_REFUSAL_PORTION);
    expect("other sender", shinglebar_why_any(0x1235, tlvs, sizeof tlvs, 0, table, sizeof table),
           SHINGLEBAR_WHY_NICKNAME_NOT_MEANT);

    why = shinglebar_why_any(0x1234, tlvs, sizeof tlvs, 0, table, sizeof table);
    expect("cleared", shinglebar_kind(why), SHINGLEBAR_WHY_CLEARED);
    expect("sender", (uint64_t)shinglebar_is_sender(why), 1);
    expect("no nickname place", shinglebar_nickname_place(why), 0);
    expect("by a TLV", (uint64_t)shinglebar_label_is_by_tlv(why), 1);
    expect("label place", shinglebar_label_place(why), 2);
    expect("one MAC", (uint64_t)shinglebar_is_every_mac(why), 0);
    expect("MAC place", shinglebar_mac_place(why), 1);

    why = shinglebar_why_any(0x0102, blocks, sizeof blocks, 0, table, sizeof table);
    expect("cleared by blocks", shinglebar_kind(why), SHINGLEBAR_WHY_CLEARED);
    expect("listed", (uint64_t)shinglebar_is_sender(why), 0);
    expect("nickname place", shinglebar_nickname_place(why), 1);
    expect("by a block", (uint64_t)shinglebar_label_is_by_tlv(why), 0);
    expect("block", shinglebar_label_place(why), 1);
    expect("every MAC", (uint64_t)shinglebar_is_every_mac(why), 1);
    expect("no MAC place", shinglebar_mac_place(why), 0);

    expect("highest nickname place", shinglebar_nickname_place(highest), 255);
    expect("highest label place", shinglebar_label_place(highest), SHINGLEBAR_PLACE_MAX);
    expect("highest MAC place", shinglebar_mac_place(highest), SHINGLEBAR_PLACE_MAX);
    return failures == 0 ? 0 : 1;
}
