//! A port with Smart Endnodes (document 02, 2026-13): "doesn't refuse our own ingress nickname, and learns nothing from such frames
//! (answer kept); other ports keep 9".

use shinglebar_tests::compare;
use shinglebar_tests::generate::{self, Pool};
use shinglebar_tests::maps;
use shinglebar_tests::reference::{self, write, Entry, Label, Settings, RECORD};
use shinglebar_tests::run;

const PORT: Settings = Settings {
    port: 0x0200_0000_00A1,
    inner: 0x0200_0000_00B1,
    nickname: 0x0102,
    compact: 1,
    confidence: 20,
    seconds: 300,
    multihomed: 0,
    smart: 1,
};

fn bytes(hex: &str) -> Vec<u8> {
    let digits: String = hex.split_whitespace().collect();
    (0..digits.len() / 2)
        .map(|at| u8::from_str_radix(&digits[2 * at..2 * at + 2], 16).unwrap())
        .collect()
}

/// A General frame from 020000000001 with this ingress nickname, to the switch 0102.
fn general(ingress: u16) -> Vec<u8> {
    bytes(&format!(
        "0200000000A1 0200000000B2 22F3 0005 0102 {ingress:04X} 02000000000D 020000000001 8100000A 08004500"
    ))
}

fn learned(nickname: u16, multihomed: bool) -> [u8; RECORD] {
    write(
        true,
        &Entry {
            label: Label::Vlan(10),
            mac: 0x0200_0000_0001,
            nickname,
            confidence: 0,
            seconds: 100,
            multihomed,
        },
    )
}

const NATIVE: u64 = 16;
const KEPT: u64 = 2;
const DELIVERED_KEPT: u64 = 65 | NATIVE << 8 | KEPT << 24 | 10 << 40;

/// Reads a frame with both implementations; the table must stay.
fn read_and_stay(settings: &Settings, frame: &[u8], table: &[u8]) -> u64 {
    let mut random = run::random("a_port_with_smart_endnodes_learns_nothing_of_its_own_nickname");
    let (mut after, mut out) = (table.to_vec(), vec![0xEE; 64]);
    let word = compare::receive_port(&mut random, settings, &[], frame, &mut after, &mut out);
    assert_eq!(after, table);
    word
}

#[test]
fn a_port_with_smart_endnodes_learns_nothing_of_its_own_nickname() {
    let tables = [
        [0; RECORD].to_vec(),
        // a full table: kept, not full
        [learned(0x1234, false)].concat(),
        // homes of the pair are neither overwritten nor cleared
        [learned(0x1234, true), learned(0x1235, true)].concat(),
        [learned(0x0102, false)].concat(),
        [[0xC0; RECORD]].concat(),
    ];
    for table in &tables {
        for multihomed in 0..=2 {
            let on = Settings { multihomed, ..PORT };
            let off = Settings { smart: 0, ..on };
            for reserved in [0x00, 0x10, 0x20, 0x30] {
                let mut frame = general(0x0102);
                frame[14] |= reserved;
                assert_eq!(read_and_stay(&on, &frame, table), DELIVERED_KEPT);
                assert_eq!(read_and_stay(&off, &frame, table), 9);
            }
        }
    }
    // the egress nickname is judged as before, and so is the range of the ingress nickname
    for nickname in [0x0000, 0xFFC0, 0xFFFF] {
        assert_eq!(read_and_stay(&PORT, &general(nickname), &tables[0]), 9);
        let mut frame = general(0x0102);
        frame[16..18].copy_from_slice(&nickname.to_be_bytes());
        assert_eq!(read_and_stay(&PORT, &frame, &tables[0]), 9);
    }
    for smart in [2, 3, 0x100, 0x101, 1 << 31, u32::MAX] {
        let settings = Settings { smart, ..PORT };
        assert_eq!(read_and_stay(&settings, &general(0x1234), &tables[0]), 1);
    }
}

#[test]
fn a_flush_with_our_own_nickname_and_no_list_is_carried_out_with_smart_endnodes() {
    let mut random =
        run::random("a_flush_with_our_own_nickname_and_no_list_is_carried_out_with_smart_endnodes");
    let flush = bytes(
        "0200000000A1 0200000000B2 22F3 0005 0102 0102 0200000000B1 020000000001 8100000A 8946 0009 0000 00 01 000A 000A",
    );
    for (smart, word, cleared) in [(1, 67 | 1 << 8, true), (0, 9, false)] {
        let settings = Settings { smart, ..PORT };
        let table = learned(0x0102, false).to_vec();
        let (mut after, mut out) = (table.clone(), vec![0; 8]);
        let read = compare::receive_port(&mut random, &settings, &[], &flush, &mut after, &mut out);
        assert_eq!(read, word);
        assert_eq!(after != table, cleared);
    }
}

/// The ingress nickname of a frame that can be read at this port.
fn ingress_of(settings: &Settings, frame: &[u8]) -> Option<u32> {
    let fields = match reference::front(settings.port, frame) {
        reference::Front::General => reference::read_general(frame).ok(),
        reference::Front::Compact => reference::read_compact(frame).ok(),
        reference::Front::Reserved => None,
    };
    fields.map(|fields| u32::from(fields.ingress))
}

/// With the setting on, an answer differs from that with it off only where the ingress nickname is our own.
#[test]
fn smart_endnodes_bear_on_frames_with_our_own_ingress_nickname_alone() {
    run::cases(
        "smart_endnodes_bear_on_frames_with_our_own_ingress_nickname_alone",
        1,
        run::RECEIVE_PORT,
        &[
            "own, on: delivered, kept",
            "own, on: flushed",
            "own, on: onward",
            "own, off: 9",
            "another: learned",
            "another: the same",
        ],
        |random, tally| {
            let pool = Pool::new(random);
            let settings = maps::settings(random, &pool);
            let map = match random.below(3) {
                0 => maps::map(random, &pool),
                _ => Vec::new(),
            };
            let mut frame = generate::frame(random, &pool, &settings);
            if random.one_in(2) {
                frame.ingress = settings.nickname as u16;
            }
            let room = generate::area_length(random, 16 + frame.content.len());
            let frame = generate::damage(random, frame.bytes());
            let (table, out) = (generate::table(random, &pool), random.bytes(room));
            let mut read = |smart| {
                let settings = Settings { smart, ..settings };
                let (mut after, mut written) = (table.clone(), out.clone());
                let word = compare::receive_port(
                    random,
                    &settings,
                    &map,
                    &frame,
                    &mut after,
                    &mut written,
                );
                (word, after, written)
            };
            let given = read(settings.smart);
            tally.word(given.0);
            let (on, off) = (read(1), read(0));
            let known = reference::Settings {
                smart: 0,
                ..settings
            }
            .check()
            .is_ok();
            if !known {
                assert_eq!((on.0, off.0), (1, 1));
                return;
            }
            if on == off {
                match on.0 & 0xFF {
                    65 if on.0 >> 24 & 3 == 0 => tally.situation("another: learned"),
                    _ => tally.situation("another: the same"),
                }
                return;
            }
            assert_eq!(ingress_of(&settings, &frame), Some(settings.nickname));
            assert_eq!(off.0, 9);
            assert_eq!((&off.1, &off.2), (&table, &out));
            tally.situation("own, off: 9");
            match on.0 & 0xFF {
                65 => {
                    assert_eq!((on.0 >> 24 & 3, &on.1), (KEPT, &table));
                    tally.situation("own, on: delivered, kept");
                }
                67 => tally.situation("own, on: flushed"),
                64 => tally.situation("own, on: onward"),
                _ => {}
            }
        },
    );
}
