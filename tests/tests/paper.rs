//! The cases P1 to P11 of document 01, and readings of its rules, on the second implementation
//! alone.

use shinglebar_tests::compare::hex;
use shinglebar_tests::generate::{self, Pool};
use shinglebar_tests::reference::{
    age, compact, expand, flush, lookup, read, receive, send, spoilt, write, Entry, Label, Record,
    Settings, RECORD,
};
use shinglebar_tests::run;

const PORT: u64 = 0x0200_0000_00A1;
const INNER: u64 = 0x0200_0000_00B1;

const SETTINGS: Settings = Settings {
    port: PORT,
    inner: INNER,
    nickname: 0x0102,
    compact: 1,
    confidence: 20,
    seconds: 300,
    multihomed: 0,
    smart: 0,
};

const OFF: Settings = Settings {
    compact: 0,
    ..SETTINGS
};

/// "P1 gets the zero byte too" (document 02, 2026-12).
const P1: [u8; 15] = [
    0x40, 0x00, 0x01, 0x40, 0x40, 0x00, 0x00, 0x00, 0x00, 0x22, 0x46, 0x82, 0x81, 0x2C, 0x00,
];

const FREE: [u8; RECORD] = [0; RECORD];

/// P10: General, and what it compacts to.
const GENERAL: &str =
    "0200000000A1 0200000000B2 22F3 000501021234 02000000000D 020000000001 8100000A 08004500";
const COMPACT: &str = "02000000000D 020000000001 8100000A 22F3 000501021234 08004500";

/// The bytes of hexadecimal digits, blanks left out.
fn bytes(text: &str) -> Vec<u8> {
    let digits: Vec<u8> = text
        .chars()
        .filter_map(|digit| digit.to_digit(16))
        .map(|digit| digit as u8)
        .collect();
    digits
        .chunks(2)
        .map(|pair| pair[0] << 4 | pair[1])
        .collect()
}

fn flushed(count: u64) -> u64 {
    67 | count << 8
}

fn entry(label: Label) -> Entry {
    Entry {
        label,
        mac: 0x0200_0000_0001,
        nickname: 0x1234,
        confidence: 20,
        seconds: 300,
        multihomed: false,
    }
}

/// The labels that a payload clears from a table with one learned record for each of them.
fn cleared(payload: &str, labels: &[Label]) -> Vec<Label> {
    let mut table: Vec<u8> = labels
        .iter()
        .flat_map(|label| write(true, &entry(*label)))
        .collect();
    let word = flush(0x1234, &bytes(payload), &mut table);
    let gone: Vec<Label> = labels
        .iter()
        .zip(table.chunks(RECORD))
        .filter(|(_, record)| *record == FREE)
        .map(|(label, _)| *label)
        .collect();
    assert_eq!(word, flushed(gone.len() as u64), "{payload}");
    gone
}

fn flush_of_p1(ingress: u32, payload: &str) -> u64 {
    let mut table = P1;
    let word = flush(ingress, &bytes(payload), &mut table);
    let expected = if word == flushed(1) { FREE } else { P1 };
    assert_eq!(table, expected, "{payload}");
    word
}

/// Reads a frame with a free table of one record and an area of 64 bytes; a refusal or an answer
/// that is no delivery must leave the area, and the table unless it was flushed.
fn received(settings: &Settings, frame: &str) -> u64 {
    let (mut table, mut out) = (FREE, [0xAA; 64]);
    let word = receive(settings, &bytes(frame), &mut table, &mut out);
    if word & 0xFF != 65 {
        assert_eq!((table, out), (FREE, [0xAA; 64]), "{frame}");
    }
    word
}

fn compacted(settings: &Settings, frame: &str) -> u64 {
    compact(settings, &bytes(frame), &mut [0; 64])
}

fn expanded(settings: &Settings, frame: &str) -> u64 {
    expand(
        settings,
        0x0200_0000_00B2,
        0,
        0,
        &bytes(frame),
        &mut [0; 64],
    )
}

#[test]
fn p1_a_learned_record() {
    let there = entry(Label::Vlan(10));
    assert_eq!(read(&P1), Record::Learned(there));
    assert_eq!(write(true, &there), P1);
    assert_eq!(lookup(0, 10, 0x0200_0000_0001, &P1), 64 | 0x1234 << 8);
}

#[test]
fn p2_a_listed_nickname_and_a_block_clear_the_record() {
    assert_eq!(flush_of_p1(1, "01 1234 01 000A 000C"), flushed(1));
}

#[test]
fn p3_the_ingress_nickname_is_meant_where_none_is_listed() {
    assert_eq!(flush_of_p1(0x1234, "00 01 000A 000A"), flushed(1));
    assert_eq!(flush_of_p1(0x1235, "00 01 000A 000A"), flushed(0));
}

#[test]
fn p4_and_p5_the_whole_block_and_the_empty_block() {
    let labels = [1, 2, 0x00A, 0xFFD, 0xFFE].map(Label::Vlan);
    assert_eq!(cleared("00 01 0000 0FFF", &labels), labels);
    assert_eq!(cleared("00 01 000B 000A", &labels), []);
}

#[test]
fn p6_a_map_does_not_wrap() {
    let labels = [0, 1, 0xFF_FFFD, 0xFF_FFFE, 0xFF_FFFF].map(Label::Fine);
    let last = [Label::Fine(0xFF_FFFE), Label::Fine(0xFF_FFFF)];
    assert_eq!(cleared("00 00 05 04 FFFFFE C0", &labels), last);
    assert_eq!(cleared("00 00 05 04 FFFFFE FF", &labels), last);
}

#[test]
fn p7_and_p8_a_broken_length_rule_is_15() {
    assert_eq!(flush_of_p1(0x1234, "00 00 01 03 00 0A 00"), 15);
    assert_eq!(flush_of_p1(0x1234, "00 00 06 01"), 15);
    // P8 ends before its value; here the value is there, and its length alone is wrong.
    assert_eq!(flush_of_p1(0x1234, "00 00 06 01 00"), 15);
}

#[test]
fn p9_a_mac_list_alone_clears_nothing() {
    assert_eq!(flush_of_p1(0x1234, "00 00 07 06 020000000001"), flushed(0));
}

#[test]
fn p10_a_general_frame_compacts() {
    let mut out = [0xAA; 30];
    let word = compact(&SETTINGS, &bytes(GENERAL), &mut out);
    assert_eq!(word, 64 | 28 << 8);
    assert_eq!(hex(&out[..28]), hex(&bytes(COMPACT)));
    assert_eq!(out[28..], [0xAA; 2]);
}

#[test]
fn p11_a_reserved_inner_destination_is_not_compacted() {
    let frame = GENERAL.replace("02000000000D", "0180C2000042");
    assert_eq!(compacted(&SETTINGS, &frame), 17);
    assert_eq!(send(&SETTINGS, &bytes(&frame), &mut [0; 9204]), 65);
}

#[test]
fn both_formats_are_delivered_and_learned_alike() {
    for frame in [GENERAL, COMPACT] {
        let (mut table, mut out) = ([FREE, FREE].concat(), [0xAA; 20]);
        let word = receive(&SETTINGS, &bytes(frame), &mut table, &mut out);
        assert_eq!(word, 65 | 16 << 8 | 10 << 40);
        assert_eq!(
            hex(&out),
            hex(&bytes("02000000000D 020000000001 08004500 AAAAAAAA"))
        );
        assert_eq!(table, [P1, FREE].concat());
        let word = receive(&SETTINGS, &bytes(frame), &mut table, &mut out);
        assert_eq!(word, 65 | 16 << 8 | 1 << 24 | 10 << 40);
        assert_eq!(table, [P1, FREE].concat());
    }
}

#[test]
fn reading_1_a_cut_field_is_6_whatever_is_there() {
    let general = &GENERAL[..26];
    assert_eq!(received(&SETTINGS, &format!("{general} 81")), 3);
    assert_eq!(received(&SETTINGS, &format!("{general} 8100 0A")), 6);
    assert_eq!(received(&SETTINGS, &format!("{general} 8100 000A 88")), 6);
    assert_eq!(received(&SETTINGS, &format!("{general} 8100 000A 8800")), 4);
    assert_eq!(
        received(&SETTINGS, &format!("{general} 22F3 C005010212")),
        6
    );
    assert_eq!(
        received(&SETTINGS, &format!("{general} 22F3 C00501021234")),
        7
    );
}

#[test]
fn reading_2_the_header_gives_6_then_7_then_12_then_6() {
    // V 1 and M 1, an option of four bytes wanted, nothing behind.
    let frame = |header: &str| format!("{} 22F3 {header}", &GENERAL[..26]);
    assert_eq!(received(&SETTINGS, &frame("484501021234")), 7);
    assert_eq!(received(&SETTINGS, &frame("084501021234")), 12);
    assert_eq!(received(&SETTINGS, &frame("004501021234 000000")), 6);
    assert_eq!(received(&SETTINGS, &frame("004501021234 00000000")), 6);
}

#[test]
fn reading_3_compact_10_comes_before_4_and_general_4_before_10() {
    let compact = COMPACT.replace("22F3", "22F4");
    assert_eq!(received(&SETTINGS, &compact), 4);
    assert_eq!(
        received(&SETTINGS, &compact.replace("8100000A", "88A8000A")),
        10
    );
    assert_eq!(received(&SETTINGS, &COMPACT.replace("8100000A ", "")), 10);
    let general = GENERAL.replace("22F3", "22F4");
    assert_eq!(
        received(&SETTINGS, &general.replace("8100000A", "88A8000A")),
        4
    );
    let two_tags = GENERAL.replace("22F3", "8100 0001 8100 0002 22F3");
    assert_eq!(received(&SETTINGS, &two_tags), 4);
}

#[test]
fn reading_4_the_label_gives_10_as_soon_as_its_field_is_there() {
    let start = &COMPACT[..25];
    assert_eq!(received(&SETTINGS, &format!("{start} 8100 00")), 6);
    assert_eq!(received(&SETTINGS, &format!("{start} 8100 F000")), 10);
    assert_eq!(received(&SETTINGS, &format!("{start} 8100 0FFF")), 10);
    assert_eq!(received(&SETTINGS, &format!("{start} 893B 0001 8100")), 10);
    assert_eq!(received(&SETTINGS, &format!("{start} 893B 0001 81")), 6);
    assert_eq!(
        received(&SETTINGS, &format!("{start} 893B 0001 893B 00")),
        6
    );
}

#[test]
fn reading_5_hop_count_nicknames_and_source_are_judged_after_the_content() {
    for frame in [GENERAL, COMPACT] {
        let all = frame
            .replace("000501021234", "000001020102")
            .replace("020000000001", "030000000001");
        assert_eq!(received(&SETTINGS, &all.replace(" 08004500", " 08")), 6);
        assert_eq!(received(&SETTINGS, &all), 8);
        let hops = all.replace("000001020102", "000501020102");
        assert_eq!(received(&SETTINGS, &hops), 9);
        let nicknames = hops.replace("000501020102", "000501021234");
        assert_eq!(received(&SETTINGS, &nicknames), 11);
        for header in [
            "000500001234",
            "0005FFC01234",
            "000501020000",
            "00050102FFC0",
        ] {
            assert_eq!(
                received(&SETTINGS, &frame.replace("000501021234", header)),
                9
            );
        }
    }
}

#[test]
fn reading_6_an_onward_frame_is_not_looked_into() {
    let frame = |content: &str| {
        GENERAL
            .replace("000501021234", "000501031234")
            .replace("02000000000D", "0180C2000041")
            .replace("08004500", content)
    };
    for content in ["08004500", "8946", "8946 F0090000 00"] {
        let (mut table, mut out) = (P1, []);
        let word = receive(&SETTINGS, &bytes(&frame(content)), &mut table, &mut out);
        assert_eq!((word, table), (64, P1));
    }
}

#[test]
fn readings_7_and_13_the_channel_is_judged_before_its_protocol() {
    let frame = |destination: &str, content: &str| {
        GENERAL
            .replace("02000000000D", destination)
            .replace("08004500", content)
    };
    let own = "0200000000B1";
    assert_eq!(received(&SETTINGS, &frame(own, "8946")), 6);
    assert_eq!(received(&SETTINGS, &frame(own, "8946 100900")), 6);
    assert_eq!(received(&SETTINGS, &frame(own, "8946 10080000")), 14);
    assert_eq!(received(&SETTINGS, &frame(own, "8946 00080001")), 14);
    assert_eq!(received(&SETTINGS, &frame(own, "8946 0008FFF0")), 66);
    assert_eq!(received(&SETTINGS, &frame(own, "8946 0009FFF0")), 15);
    assert_eq!(
        received(&SETTINGS, &frame(own, "8946 00090000 00 00")),
        flushed(0)
    );
    assert_eq!(
        received(&SETTINGS, &frame("0180C2000042", "8946 00080000")),
        66
    );
    for last in ["40", "41", "43", "4F"] {
        let destination = format!("0180C20000{last}");
        assert_eq!(
            received(&SETTINGS, &frame(&destination, "8946 00090000 00 00")),
            14
        );
        assert_eq!(received(&SETTINGS, &frame(&destination, "0800")), 13);
    }
    assert_eq!(received(&SETTINGS, &frame(own, "0800")) & 0xFF, 65);
}

#[test]
fn reading_8_output_room_concerns_only_what_is_written() {
    let mut table = P1;
    let channel = GENERAL
        .replace("02000000000D", "0200000000B1")
        .replace("08004500", "8946 00090000 00 01 000A 000A");
    assert_eq!(
        receive(&SETTINGS, &bytes(&channel), &mut table, &mut []),
        flushed(1)
    );
    let mut out = [0xAA; 15];
    assert_eq!(
        receive(&SETTINGS, &bytes(GENERAL), &mut table, &mut out),
        16
    );
    assert_eq!((table, out), (FREE, [0xAA; 15]));
    assert_eq!(flush(0x1234, &[], &mut []), 2);
}

#[test]
fn reading_9_expansion_judges_lengths_before_the_frame() {
    let long = |length| expand(&SETTINGS, 0, 0, 0, &vec![0xFF; length], &mut []);
    assert_eq!(long(13), 3);
    assert_eq!(long(9204), 10);
    assert_eq!(long(9205), 3);
    let tagged = |length, tag| expand(&SETTINGS, 0, 1, tag, &vec![0xFF; length], &mut []);
    assert_eq!(tagged(9200, 1), 10);
    assert_eq!(tagged(9201, 1), 3);
    assert_eq!(tagged(13, 0), 1);
    assert_eq!(tagged(13, 0xFFF), 1);
    assert_eq!(expanded(&SETTINGS, GENERAL), 18);
    assert_eq!(expanded(&OFF, COMPACT), 64 | 40 << 8);
    assert_eq!(
        expanded(&OFF, &COMPACT.replace("02000000000D", "0180C2000040")),
        18
    );
    assert_eq!(
        expanded(&OFF, &COMPACT.replace("02000000000D", "0180C2000041")),
        5
    );
    let group = expand(
        &SETTINGS,
        0x0100_0000_0000,
        0,
        0,
        &bytes(COMPACT),
        &mut [0; 64],
    );
    assert_eq!(group, 1);
}

#[test]
fn expansion_writes_the_port_or_all_rbridges_and_the_tag() {
    let mut out = [0xAA; 46];
    let word = expand(
        &SETTINGS,
        0x0200_0000_00B2,
        1,
        0xFFE,
        &bytes(COMPACT),
        &mut out,
    );
    assert_eq!(word, 64 | 44 << 8);
    let tagged = GENERAL.replace("22F3", "81000FFE 22F3");
    assert_eq!(hex(&out[..44]), hex(&bytes(&tagged)));
    assert_eq!(out[44..], [0xAA; 2]);
    let multicast = |frame: &str| frame.replace("000501021234", "080501021234");
    let frame = bytes(&multicast(COMPACT));
    assert_eq!(
        expand(&SETTINGS, 0x0200_0000_00B2, 0, 7, &frame, &mut out),
        64 | 40 << 8
    );
    let general = multicast(GENERAL).replace("0200000000A1", "0180C2000040");
    assert_eq!(hex(&out[..40]), hex(&bytes(&general)));
}

#[test]
fn reading_10_compaction_does_not_judge_hop_count_nicknames_and_source() {
    let frame = GENERAL
        .replace("000501021234", "00000000FFFF")
        .replace("020000000001", "030000000001");
    assert_eq!(compacted(&OFF, &frame), 64 | 28 << 8);
    assert_eq!(compacted(&OFF, COMPACT), 17);
    let reserved = GENERAL.replace("0200000000A1", "0180C2000041");
    assert_eq!(compacted(&SETTINGS, &reserved), 5);
    let far_port = GENERAL.replace("02000000000D", "0200000000A1");
    assert_eq!(compacted(&SETTINGS, &far_port), 17);
    assert_eq!(compacted(&Settings { seconds: 9, ..OFF }, GENERAL), 1);
    let tagged = GENERAL.replace("22F3", "81000FFE 22F3");
    assert_eq!(compacted(&SETTINGS, &tagged), 64 | 28 << 8);
}

#[test]
fn reading_11_sending_gives_the_frame_itself_and_leaves_the_working_area() {
    let sent = |settings, frame: &str| {
        let mut work = [0xAA; 9204];
        let word = send(settings, &bytes(frame), &mut work);
        if word & 0xFF != 64 {
            assert_eq!(work, [0xAA; 9204]);
        }
        word
    };
    assert_eq!(sent(&SETTINGS, GENERAL), 64 | 28 << 8);
    assert_eq!(sent(&OFF, GENERAL), 65);
    assert_eq!(
        sent(&SETTINGS, &GENERAL.replace("02000000000D", "0200000000A1")),
        65
    );
    assert_eq!(sent(&SETTINGS, COMPACT), 17);
    assert_eq!(sent(&OFF, COMPACT), 17);
    assert_eq!(sent(&OFF, &GENERAL.replace("8100000A", "81000000")), 10);
    assert_eq!(sent(&SETTINGS, &GENERAL.replace(" 08004500", " 08")), 6);
}

/// "Sending now gives 16 exactly if the area is shorter, after 1 and before reading the frame [..] Compaction called by itself keeps its
/// own 16" (document 02, 2026-11).
#[test]
fn sending_gives_16_after_1_and_before_reading_the_frame() {
    let stays = GENERAL.replace("02000000000D", "0200000000A1");
    let bad = Settings {
        seconds: 9,
        ..SETTINGS
    };
    for length in [0, 28, 9203] {
        for frame in [GENERAL, &stays, COMPACT, "", "02"] {
            let mut work = vec![0xAA; length];
            assert_eq!(send(&bad, &bytes(frame), &mut work), 1);
            assert_eq!(send(&SETTINGS, &bytes(frame), &mut work), 16);
            assert_eq!(send(&OFF, &bytes(frame), &mut work), 16);
            assert!(work.iter().all(|byte| *byte == 0xAA));
        }
    }
    let mut work = [0; 9204];
    assert_eq!(send(&bad, &bytes(GENERAL), &mut work), 1);
    assert_eq!(send(&SETTINGS, &[], &mut work), 3);
    assert_eq!(send(&SETTINGS, &bytes(GENERAL), &mut work), 64 | 28 << 8);
    assert_eq!(compact(&SETTINGS, &bytes(GENERAL), &mut [0; 27]), 16);
    assert_eq!(
        compact(&SETTINGS, &bytes(GENERAL), &mut [0; 28]),
        64 | 28 << 8
    );
    assert_eq!(compact(&SETTINGS, &[], &mut []), 3);
    assert_eq!(compact(&SETTINGS, &bytes(&stays), &mut []), 17);
}

#[test]
fn reading_12_group_addresses_in_front_are_compact() {
    for front in ["FFFFFFFFFFFF", "0180C200003F", "0180C2000050"] {
        let frame = COMPACT.replace("02000000000D", front);
        assert_eq!(received(&SETTINGS, &frame) & 0xFF, 65);
        assert_eq!(received(&OFF, &frame), 5);
    }
    assert_eq!(
        received(&SETTINGS, &COMPACT.replace("02000000000D", "0180C200004F")),
        5
    );
}

/// "Inner destinations 01-80-C2-00-00-00 to 0F, and 21, now give 17 [..] In front of a received frame these addresses give 5, even with
/// Compact on, and compaction and expansion give 5 as well" (document 02, 2026-09).
#[test]
fn control_addresses_are_not_compacted_and_are_5_in_front() {
    let written = |word: u64| word & 0xFF == 64;
    for last in 0..=0xFFu64 {
        let control = last <= 0x0F || last == 0x21;
        let group = (0x40..=0x4F).contains(&last);
        let address = format!("0180C20000{last:02X}");
        let inside = GENERAL.replace("02000000000D", &address);
        let stays = control || group;
        assert_eq!(compacted(&SETTINGS, &inside) == 17, stays, "{address}");
        assert_eq!(written(compacted(&SETTINGS, &inside)), !stays, "{address}");
        let mut work = [0; 9204];
        let word = send(&SETTINGS, &bytes(&inside), &mut work);
        assert_eq!(word == 65, stays, "{address}");
        // Read from a General frame it is delivered, :40 to :4F being 13.
        assert_eq!(received(&SETTINGS, &inside) & 0xFF == 65, !group);
        // In front of a Compact frame.
        let front = COMPACT.replace("02000000000D", &address);
        if control {
            assert_eq!(received(&SETTINGS, &front), 5, "{address}");
            assert_eq!(received(&OFF, &front), 5, "{address}");
            assert_eq!(compacted(&SETTINGS, &front), 5, "{address}");
            assert_eq!(expanded(&SETTINGS, &front), 5, "{address}");
            assert_eq!(expanded(&OFF, &front), 5, "{address}");
        } else if !group {
            assert_eq!(received(&SETTINGS, &front) & 0xFF, 65, "{address}");
            assert_eq!(compacted(&SETTINGS, &front), 17, "{address}");
            assert!(written(expanded(&SETTINGS, &front)), "{address}");
        }
    }
}

#[test]
fn reading_14_only_a_strictly_higher_confidence_is_kept() {
    for (confidence, learning) in [(19, 1), (20, 1), (21, 2)] {
        let there = Entry {
            confidence,
            nickname: 0x4321,
            seconds: 8191,
            ..entry(Label::Vlan(10))
        };
        let mut table = [[0xC0; RECORD], FREE, write(true, &there)].concat();
        let given = table.clone();
        let word = receive(&SETTINGS, &bytes(COMPACT), &mut table, &mut [0; 16]);
        assert_eq!(word >> 24 & 3, learning);
        let last = if learning == 1 {
            &P1
        } else {
            &given[2 * RECORD..]
        };
        assert_eq!(table, [&given[..2 * RECORD], last].concat());
    }
    // A spoilt record beside the address does not hinder learning it in a free slot.
    let mut table = [write(true, &entry(Label::Vlan(0))), FREE].concat();
    let word = receive(&SETTINGS, &bytes(COMPACT), &mut table, &mut [0; 16]);
    assert_eq!(word >> 24 & 3, 0);
    assert_eq!(table[RECORD..], P1);
    // A configured record is kept; a table without a free slot is full.
    let mut table = write(false, &entry(Label::Vlan(10)));
    let word = receive(&SETTINGS, &bytes(COMPACT), &mut table, &mut [0; 16]);
    assert_eq!(word >> 24 & 3, 2);
    let mut table = write(true, &entry(Label::Fine(10)));
    let word = receive(&SETTINGS, &bytes(COMPACT), &mut table, &mut [0; 16]);
    assert_eq!((word & 0xFF, word >> 24 & 3), (65, 3));
    assert_eq!(table, write(true, &entry(Label::Fine(10))));
}

#[test]
fn reading_15_ageing_and_the_lowest_match() {
    let zero = Entry {
        mac: 0,
        seconds: 0,
        ..entry(Label::Vlan(10))
    };
    let mut table = [write(true, &zero), P1, write(false, &zero)].concat();
    assert_eq!(lookup(0, 10, 0, &table), 64 | 0x1234 << 8);
    assert_eq!(age(0, &mut table), 64);
    assert_eq!(table, [FREE, P1, write(false, &zero)].concat());
    assert_eq!(age(299, &mut table), 64);
    assert_eq!(age(1, &mut table), 64);
    assert_eq!(table, [FREE, FREE, write(false, &zero)].concat());
    assert_eq!(age(65_535, &mut table), 64);
    assert_eq!(table, [FREE, FREE, write(false, &zero)].concat());
    let other = Entry {
        nickname: 0x4321,
        ..entry(Label::Vlan(10))
    };
    let table = [P1, write(false, &other)].concat();
    assert_eq!(lookup(0, 10, 0x0200_0000_0001, &table), 64 | 0x1234 << 8);
}

#[test]
fn reading_16_a_vlan_record_is_judged_on_all_24_bits() {
    let mut table = P1;
    assert_eq!(spoilt(&table), 65);
    table[0] |= 0x10;
    assert_eq!(read(&table), Record::Spoilt);
    assert_eq!(spoilt(&[P1, table].concat()), 64 | 1 << 8);
    assert_eq!(lookup(0, 10, 0x0200_0000_0001, &table), 65);
    assert_eq!(lookup(0, 10 | 1 << 23, 0x0200_0000_0001, &table), 65);
    for (kind, label, mac) in [
        (1, 10, 0x0200_0000_0001),
        (2, 10, 0x0200_0000_0001),
        (0, 10 | 1 << 24, 0x0200_0000_0001),
        (0, 10 | 1 << 16, 0x0200_0000_0001),
        (0, 10 | 1 << 12, 0x0200_0000_0001),
        (0, 10, 1 << 48 | 0x0200_0000_0001),
    ] {
        assert_eq!(lookup(kind, label, mac, &P1), 65);
    }
}

#[test]
fn reading_17_macs_are_gathered_or_all_are_meant() {
    // Empty lists and empty blocks gather nothing: every MAC is meant.
    assert_eq!(flush_of_p1(0x1234, "00 00 06 00 07 00"), flushed(1));
    assert_eq!(flush_of_p1(0x1234, "00 00 06 00 08 00"), flushed(1));
    let empty = "00 00 06 00 08 0C 020000000002 020000000001";
    assert_eq!(flush_of_p1(0x1234, empty), flushed(1));
    // A group MAC counts as gathered.
    assert_eq!(
        flush_of_p1(0x1234, "00 00 06 00 07 06 030000000001"),
        flushed(0)
    );
    let block = "00 00 06 00 08 0C 020000000001 020000000001";
    assert_eq!(flush_of_p1(0x1234, block), flushed(1));
}

#[test]
fn reading_18_trailing_bytes_empty_ends_and_unknown_types() {
    assert_eq!(flush_of_p1(0x1234, "00 01 000A 000A 01"), flushed(1));
    assert_eq!(
        flush_of_p1(0x1234, "00 01 000A 000A 07 06 020000000002"),
        flushed(1)
    );
    assert_eq!(flush_of_p1(0x1234, "00 00"), flushed(0));
    for kind in ["00", "09", "FF"] {
        let payload = format!("00 00 {kind} 01 AA 01 04 000A 000A {kind} 00");
        assert_eq!(flush_of_p1(0x1234, &payload), flushed(1));
        let lone = if kind == "00" { flushed(1) } else { 15 };
        assert_eq!(flush_of_p1(0x1234, &format!("{payload} {kind}")), lone);
        assert_eq!(flush_of_p1(0x1234, &format!("{payload} {kind} 01")), 15);
    }
    for kind in ["01", "03", "04", "07", "08"] {
        assert_eq!(
            flush_of_p1(0x1234, &format!("00 00 {kind} 00 06 00")),
            flushed(1)
        );
    }
    for kind in ["02", "05"] {
        assert_eq!(flush_of_p1(0x1234, &format!("00 00 {kind} 00 06 00")), 15);
    }
}

/// Document 02, 2026-02, and readings 130 to 132.
#[test]
fn reading_130_a_lone_last_zero_is_padding() {
    // behind TLVs, and straight behind K-VLBs 0
    assert_eq!(flush_of_p1(0x1234, "00 00 01 04 000A 000A 00"), flushed(1));
    assert_eq!(flush_of_p1(0x1234, "00 00 00"), flushed(0));
    assert_eq!(flush_of_p1(0x1234, "01 1234 00 00"), flushed(0));
    // "any other stays 15"
    for last in 1..=255 {
        assert_eq!(flush_of_p1(0x1234, &format!("00 00 {last:02X}")), 15);
        let payload = format!("00 00 01 04 000A 000A {last:02X}");
        assert_eq!(flush_of_p1(0x1234, &payload), 15);
    }
    // a missing K byte, a cut list, a cut block stay 15
    assert_eq!(flush_of_p1(0x1234, "00"), 15);
    assert_eq!(flush_of_p1(0x1234, "01 12"), 15);
    assert_eq!(flush_of_p1(0x1234, "01 1234"), 15);
    assert_eq!(flush_of_p1(0x1234, "00 01 00"), 15);
    // a TLV that is cut and ends with 0 stays 15
    assert_eq!(flush_of_p1(0x1234, "00 00 00 01"), 15);
    assert_eq!(flush_of_p1(0x1234, "00 00 01 04 00"), 15);
    // cut in a value and padded, it is a whole one: here the VLANs 10 to 0, none
    assert_eq!(flush_of_p1(0x1234, "00 00 01 04 000A 0000"), flushed(0));
}

#[test]
fn reading_19_maps_and_kinds_of_labels() {
    let vlans = [1, 2, 0x00A, 0xFFD, 0xFFE].map(Label::Vlan);
    assert_eq!(
        cleared("00 00 02 03 0000 E0", &vlans),
        [1, 2].map(Label::Vlan)
    );
    assert_eq!(
        cleared("00 00 02 03 FFFD FF", &vlans),
        [0xFFD, 0xFFE].map(Label::Vlan)
    );
    assert_eq!(cleared("00 00 02 03 0FFF FF", &vlans), []);
    let both = [Label::Vlan(10), Label::Fine(10)];
    assert_eq!(cleared("00 00 01 04 000A 000A", &both), [Label::Vlan(10)]);
    assert_eq!(cleared("00 00 04 03 00000A", &both), [Label::Fine(10)]);
    assert_eq!(cleared("00 00 06 00", &both), both);
}

#[test]
fn a_cut_flush_changes_nothing() {
    let payload = bytes("00 00 01 04 000A 000A 07 06 020000000001 04 06 00000A 00000B");
    for length in 0..payload.len() {
        let mut table = P1;
        let word = flush(0x1234, &payload[..length], &mut table);
        match length {
            2 => assert_eq!((word, table), (flushed(0), P1)),
            8 | 16 => assert_eq!((word, table), (flushed(1), FREE), "length {length}"),
            _ => assert_eq!((word, table), (15, P1), "length {length}"),
        }
    }
}

#[test]
fn only_listed_nicknames_and_only_learned_records_are_cleared() {
    assert_eq!(flush_of_p1(0x1234, "01 1235 01 0001 0FFE"), flushed(0));
    assert_eq!(flush_of_p1(0x1_1234, "00 01 0001 0FFE"), flushed(0));
    let configured = write(false, &entry(Label::Vlan(10)));
    let mut table = configured;
    assert_eq!(flush(0x1234, &bytes("00 00 06 00"), &mut table), flushed(0));
    assert_eq!(table, configured);
}

/// Any bytes and any numbers get an answer: a number of the list, or a kind of the call.
#[test]
fn every_input_gets_an_answer() {
    let good = |word: u64, refusals: u64, kinds: &[u64]| {
        assert!(
            (1..=refusals).contains(&word) || kinds.contains(&(word & 0xFF)),
            "{word:#x}"
        );
    };
    run::cases("every_input_gets_an_answer", 1, &[], &[], |random, _| {
        let pool = Pool::new(random);
        let mut settings = generate::good_settings(random, &pool);
        if random.one_in(3) {
            generate::disturb_settings(random, &mut settings);
        }
        let length = random.length(0, 120);
        let frame = random.bytes(length);
        let mut table = generate::table(random, &pool);
        let length = random.length(0, 60);
        let mut out = random.bytes(length);
        let numbers = [random.number(), random.number(), random.number()];
        let [a, b, c] = numbers.map(|number| number as u32);
        good(
            receive(&settings, &frame, &mut table, &mut out),
            16,
            &[64, 65, 66, 67],
        );
        good(flush(a, &frame, &mut table), 15, &[67]);
        good(compact(&settings, &frame, &mut out), 17, &[64]);
        good(
            expand(&settings, numbers[0], b & 1, c, &frame, &mut out),
            18,
            &[64],
        );
        good(send(&settings, &frame, &mut out), 17, &[64, 65]);
        good(send(&settings, &frame, &mut [0; 9204]), 17, &[64, 65]);
        good(lookup(a, b, numbers[2], &table), 2, &[64, 65]);
        good(age(a as u16, &mut table), 2, &[64]);
        good(spoilt(&table), 2, &[64, 65]);
    });
}
