/* The inline call of flush with NULL. Compiled as C and as C++. */
#include "shinglebar.h"

#include "expect.h"

int main(void)
{
    uint8_t table[SHINGLEBAR_RECORD_LENGTH] = {0x40, 0x00, 0x01, 0x40, 0x40, 0x00, 0x00,
                         0x00, 0x00, 0x22, 0x46, 0x82, 0x81, 0x2C};
    const uint8_t payload[6] = {0x00, 0x01, 0x00, 0x0A, 0x00, 0x0A};
    uint64_t flushed;
    size_t at;

    expect("both NULL", shinglebar_flush_any(0x1234, NULL, 0, NULL, 0), 2);
    expect("table NULL", shinglebar_flush_any(0x1234, payload, sizeof payload, NULL, 0), 2);
    expect("payload NULL", shinglebar_flush_any(0x1234, NULL, 0, table, sizeof table), 15);
    expect("first byte", table[0], 0x40);
    expect("other ingress",
           shinglebar_flush_any(0x1235, payload, sizeof payload, table, sizeof table),
           SHINGLEBAR_FLUSH_FLUSHED);
    flushed = shinglebar_flush_any(0x1234, payload, sizeof payload, table, sizeof table);
    expect("flushed", shinglebar_kind(flushed), SHINGLEBAR_FLUSH_FLUSHED);
    expect("count", shinglebar_count(flushed), 1);
    for (at = 0; at < sizeof table; at++) {
        expect("byte", table[at], 0);
    }
    expect("VLAN-only, both NULL", shinglebar_flush_vlan_only_any(0x1234, NULL, 0, NULL, 0), 2);
    expect("VLAN-only, payload NULL", shinglebar_flush_vlan_only_any(0x1234, NULL, 0, table, sizeof table), 15);
    expect("portion, both NULL", shinglebar_flush_portion_any(0x1234, NULL, 0, 0, 1, NULL, 0), 2);
    expect("portion, payload NULL",
           shinglebar_flush_portion_any(0x1234, NULL, 0, 0, 1, table, sizeof table), 15);
    expect("portion, k 0", shinglebar_flush_portion_any(0x1234, NULL, 0, 0, 0, table, sizeof table),
           SHINGLEBAR_REFUSAL_PORTION);
    flushed = shinglebar_flush_portion_any(0x1234, payload, sizeof payload, 0, 9, table, sizeof table);
    expect("portion", shinglebar_kind(flushed), SHINGLEBAR_FLUSH_PORTION_DONE);
    expect("portion, cleared", shinglebar_count(flushed), 0);
    expect("portion, next slot", shinglebar_next_slot(flushed), 1);
    expect("portion, examined", shinglebar_examined(flushed), 1);
    return failures == 0 ? 0 : 1;
}
