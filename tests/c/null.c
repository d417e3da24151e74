/* The inline calls of lookup, age and spoilt with NULL and with a table, and the decoders. Compiled as C
 * and as C++. */
#include "shinglebar.h"

#include "expect.h"

#define LENGTH SHINGLEBAR_RECORD_LENGTH

static void null_areas(void)
{
    expect("lookup NULL", shinglebar_lookup_any(0, 10, 1, NULL, 0), 2);
    expect("lookup NULL, other kind", shinglebar_lookup_any(7, 10, 1, NULL, 0), 2);
    expect("age NULL", shinglebar_age_any(300, NULL, 0), 2);
    expect("age NULL by 65,535", shinglebar_age_any(65535, NULL, 0), 2);
    expect("spoilt NULL", shinglebar_spoilt_any(NULL, 0), 2);
    expect("widen NULL", shinglebar_widen_any(NULL, 0, NULL, 0), 2);
}

static void an_older_table(void)
{
    const uint8_t old[SHINGLEBAR_OLD_RECORD_LENGTH] = {0x40, 0x00, 0x01, 0x40, 0x40, 0x00, 0x00,
                                                       0x00, 0x00, 0x22, 0x46, 0x82, 0x81, 0x2C};
    uint8_t table[LENGTH + 1];
    size_t at;
    for (at = 0; at < sizeof table; at++)
        table[at] = 0x5A;
    expect("no room", shinglebar_widen_any(old, sizeof old, NULL, 0), SHINGLEBAR_REFUSAL_OUTPUT_LENGTH);
    expect("a byte short of room", shinglebar_widen_any(old, sizeof old, table, LENGTH - 1),
           SHINGLEBAR_REFUSAL_OUTPUT_LENGTH);
    expect("no older table", shinglebar_widen_any(old, sizeof old - 1, table, sizeof table),
           SHINGLEBAR_REFUSAL_TABLE_LENGTH);
    expect("nothing is written", table[0], 0x5A);
    expect("widened", shinglebar_kind(shinglebar_widen_any(old, sizeof old, table, sizeof table)),
           SHINGLEBAR_WIDEN_WRITTEN);
    expect("widened length", shinglebar_written_length(shinglebar_widen_any(old, sizeof old, table, sizeof table)),
           LENGTH);
    for (at = 0; at < sizeof old; at++)
        expect("copied", table[at], old[at]);
    expect("a zero byte", table[LENGTH - 1], 0);
    expect("the rest stays", table[LENGTH], 0x5A);
}

static void a_table(void)
{
    /* Learned, VLAN 10, MAC 02-00-00-00-00-01, nickname 1234, confidence 20, 300 seconds; then a
     * spoilt record. */
    uint8_t table[2 * LENGTH] = {0x40, 0x00, 0x01, 0x40, 0x40, 0x00, 0x00, 0x00, 0x00, 0x22, 0x46, 0x82, 0x81,
                                 0x2C, 0x00, 0xC0};
    size_t at;
    uint64_t found = shinglebar_lookup_any(SHINGLEBAR_LABEL_VLAN, 10, UINT64_C(0x020000000001), table,
                                           sizeof table);
    uint64_t spoilt = shinglebar_spoilt_any(table, sizeof table);
    expect("found", shinglebar_kind(found), SHINGLEBAR_LOOKUP_FOUND);
    expect("nickname found", shinglebar_nickname(found), 0x1234);
    expect("spoilt", shinglebar_kind(spoilt), SHINGLEBAR_SPOILT_SLOT);
    expect("slot", shinglebar_slot(spoilt), 1);
    expect("one slot", shinglebar_spoilt_any(table, LENGTH), SHINGLEBAR_SPOILT_NONE);
    expect("a byte short", shinglebar_spoilt_any(table, LENGTH - 1), SHINGLEBAR_REFUSAL_TABLE_LENGTH);
    expect("age by 299", shinglebar_age_any(299, table, sizeof table), SHINGLEBAR_AGE_DONE);
    expect("1 second left", table[LENGTH - 2], 1);
    expect("age by 1", shinglebar_age_any(1, table, sizeof table), SHINGLEBAR_AGE_DONE);
    for (at = 0; at < sizeof table; at++) {
        expect("byte", table[at], at == LENGTH ? 0xC0 : 0);
    }
    expect("none", shinglebar_lookup_any(0, 10, UINT64_C(0x020000000001), table, sizeof table),
           SHINGLEBAR_LOOKUP_NONE);
}

static void decoders(void)
{
    /* Delivered, native length 9216, full, fine-grained FFFFFE. */
    uint64_t delivered = (UINT64_C(0xFFFFFE) << 40) | (UINT64_C(1) << 32) | (UINT64_C(3) << 24) |
                         (UINT64_C(9216) << 8) | SHINGLEBAR_RECEIVE_DELIVERED;
    uint64_t flushed = (UINT64_C(4096) << 8) | SHINGLEBAR_RECEIVE_FLUSHED;
    uint64_t written = (UINT64_C(9204) << 8) | SHINGLEBAR_COMPACT_WRITTEN;
    uint64_t number;

    for (number = 1; number <= 22; number++) {
        expect("a refusal", (uint64_t)shinglebar_is_refusal(number), 1);
        expect("refusal number", shinglebar_refusal(number), number);
        expect("kind of a refusal", shinglebar_kind(number), 0);
    }
    expect("last refusal", SHINGLEBAR_REFUSAL_NO_PAIR, 22);
    expect("no refusal", (uint64_t)shinglebar_is_refusal(delivered), 0);
    expect("no refusal number", shinglebar_refusal(delivered), 0);
    expect("onward is no refusal", (uint64_t)shinglebar_is_refusal(SHINGLEBAR_RECEIVE_ONWARD), 0);
    expect("delivered", shinglebar_kind(delivered), SHINGLEBAR_RECEIVE_DELIVERED);
    expect("native length", shinglebar_native_length(delivered), 9216);
    expect("learning", shinglebar_learning(delivered), SHINGLEBAR_LEARNING_FULL);
    expect("label kind", shinglebar_label_kind(delivered), SHINGLEBAR_LABEL_FINE_GRAINED);
    expect("label", shinglebar_label(delivered), 0xFFFFFE);
    expect("flushed", shinglebar_kind(flushed), SHINGLEBAR_FLUSH_FLUSHED);
    expect("count", shinglebar_count(flushed), 4096);
    expect("written length", shinglebar_written_length(written), 9204);
    expect("nickname", shinglebar_nickname((UINT64_C(0xFFBF) << 8) | 64), 0xFFBF);
    expect("slot", shinglebar_slot((UINT64_C(4095) << 8) | 64), 4095);
}

int main(void)
{
    null_areas();
    a_table();
    an_older_table();
    decoders();
    return failures == 0 ? 0 : 1;
}
