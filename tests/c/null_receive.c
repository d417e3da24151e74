/* The inline calls of receive and ingress: with NULL, and with the later fields of the settings left out and
 * given. Compiled as C and as C++. */
#include "shinglebar.h"

#include "expect.h"

#define PORT UINT64_C(0x0200000000A1)
#define INNER UINT64_C(0x0200000000B1)
#define SOURCE UINT64_C(0x0200000000B2)

/* The later fields are left out. */
#pragma GCC diagnostic ignored "-Wmissing-field-initializers"
static const struct shinglebar_settings SETTINGS = {PORT, INNER, 0x0102, 1, 20, 0};
static const struct shinglebar_encapsulation GIVEN = {PORT, SOURCE, 0, 5, 0x0102, 0x1234};

static uint8_t table[SHINGLEBAR_RECORD_LENGTH];

static void without_a_map(void)
{
    const uint8_t frame[28] = {0x02, 0x00, 0x00, 0x00, 0x00, 0x0D, 0x02, 0x00, 0x00, 0x00,
                               0x00, 0x01, 0x81, 0x00, 0x00, 0x0A, 0x22, 0xF3, 0x00, 0x05,
                               0x01, 0x02, 0x12, 0x34, 0x08, 0x00, 0x45, 0x00};
    uint8_t out[16] = {0};
    struct shinglebar_settings later = SETTINGS;
    uint64_t result;

    expect("all NULL", shinglebar_receive_any(&SETTINGS, NULL, 0, NULL, 0, NULL, 0), 2);
    expect("frame NULL",
           shinglebar_receive_any(&SETTINGS, NULL, 0, table, sizeof table, out, sizeof out), 3);
    expect("table NULL",
           shinglebar_receive_any(&SETTINGS, frame, sizeof frame, NULL, 0, out, sizeof out), 2);
    expect("output area NULL",
           shinglebar_receive_any(&SETTINGS, frame, sizeof frame, table, sizeof table, NULL, 0), 16);
    later.multihomed = 3;
    expect("multihomed", shinglebar_receive_any(&later, NULL, 0, NULL, 0, NULL, 0), 1);
    later.multihomed = 2;
    expect("multihomed, the second bit", shinglebar_receive_any(&later, NULL, 0, NULL, 0, NULL, 0), 2);
    later.multihomed = 0;
    later.smart = 2;
    expect("smart", shinglebar_receive_any(&later, NULL, 0, NULL, 0, NULL, 0), 1);
    expect("first byte", table[0], 0);
    result = shinglebar_receive_any(&SETTINGS, frame, sizeof frame, table, sizeof table, out,
                                    sizeof out);
    expect("delivered", shinglebar_kind(result), SHINGLEBAR_RECEIVE_DELIVERED);
    expect("native length", shinglebar_native_length(result), 16);
    expect("learned", shinglebar_learning(result), SHINGLEBAR_LEARNING_LEARNED);
    expect("VLAN", shinglebar_label_kind(result), SHINGLEBAR_LABEL_VLAN);
    expect("label", shinglebar_label(result), 10);
    expect("learned record", table[0], 0x40);
    expect("last byte of the native frame", out[14], 0x45);
}

static void with_a_map(void)
{
    const uint8_t native[20] = {0x02, 0x00, 0x00, 0x00, 0x00, 0x0D, 0x02, 0x00, 0x00, 0x00,
                                0x00, 0x02, 0x81, 0x00, 0x60, 0x0A, 0x08, 0x00, 0x45, 0x00};
    struct shinglebar_settings mapped = SETTINGS;
    uint8_t map[SHINGLEBAR_PAIR_LENGTH];
    uint8_t general[44] = {0};
    uint8_t out[20] = {0};
    uint64_t result;
    size_t at;

    shinglebar_pack_pair(10, 0xABCDEF, map);
    expect("label in the map", map[3], 0xAB);
    expect("ingress NULL", shinglebar_ingress_any(&SETTINGS, &GIVEN, NULL, 0, NULL, 0), 3);
    expect("no map", shinglebar_ingress_any(&SETTINGS, &GIVEN, native, sizeof native, NULL, 0), 22);
    mapped.map = map;
    mapped.map_len = sizeof map;
    expect("ingress into NULL", shinglebar_ingress_any(&mapped, &GIVEN, native, sizeof native, NULL, 0),
           16);
    result = shinglebar_ingress_any(&mapped, &GIVEN, native, sizeof native, general, sizeof general);
    expect("ingressed", shinglebar_kind(result), SHINGLEBAR_INGRESS_WRITTEN);
    expect("ingressed length", shinglebar_written_length(result), sizeof general);
    expect("second part of the label", general[39], 0xEF);

    for (at = 0; at < sizeof table; at++)
        table[at] = 0;
    result = shinglebar_receive_any(&mapped, general, sizeof general, table, sizeof table, out,
                                    sizeof out);
    expect("delivered with its tag", shinglebar_native_length(result), sizeof native);
    expect("fine-grained", shinglebar_label_kind(result), SHINGLEBAR_LABEL_FINE_GRAINED);
    expect("campus label", shinglebar_label(result), 0xABCDEF);
    for (at = 0; at < sizeof native; at++)
        expect("byte", out[at], native[at]);

    map[0] = 0xFF;
    expect("bad map", shinglebar_receive_any(&mapped, NULL, 0, table, sizeof table, NULL, 0),
           SHINGLEBAR_REFUSAL_MAP);
    shinglebar_pack_pair(10, 0xABCDEE, map);
    expect("no pair",
           shinglebar_receive_any(&mapped, general, sizeof general, table, sizeof table, NULL, 0),
           SHINGLEBAR_REFUSAL_NO_PAIR);
}

int main(void)
{
    without_a_map();
    with_a_map();
    return failures == 0 ? 0 : 1;
}
