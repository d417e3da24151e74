//! Address Flush, compared through the C boundary.

use shinglebar_tests::c_program;
use shinglebar_tests::compare;
use shinglebar_tests::generate::{self, Pool, Raw};
use shinglebar_tests::random::Random;
use shinglebar_tests::reference::{self, Label, Record, RECORD};
use shinglebar_tests::run::{self, Tally};

fn count_answer(tally: &mut Tally, word: u64) {
    tally.word(word);
    if word & 0xFF == 67 {
        tally.situation(match word >> 8 {
            0 => "flushed: none cleared",
            1 => "flushed: 1 cleared",
            2..=9 => "flushed: 2 to 9 cleared",
            10..=999 => "flushed: 10 to 999 cleared",
            _ => "flushed: 1,000 and more cleared",
        });
    }
}

const TYPES: [&str; 10] = [
    "TLV type 0",
    "TLV type 1",
    "TLV type 2",
    "TLV type 3",
    "TLV type 4",
    "TLV type 5",
    "TLV type 6",
    "TLV type 7",
    "TLV type 8",
    "TLV type above 8",
];

/// Counts the form of a payload that was accepted, and its TLVs.
fn count_form(tally: &mut Tally, payload: &[u8]) {
    let nicknames = usize::from(payload[0]);
    tally.situation(match nicknames {
        0 => "ingress nickname",
        _ => "listed nicknames",
    });
    let mut rest = &payload[1 + 2 * nicknames..];
    let blocks = usize::from(rest[0]);
    rest = &rest[1..];
    if blocks > 0 {
        tally.situation(if rest.len() > 4 * blocks {
            "VLAN block form with bytes behind"
        } else {
            "VLAN block form"
        });
        return;
    }
    while let [kind, length, behind @ ..] = rest {
        tally.situation(TYPES[usize::from(*kind).min(9)]);
        if *length == 0 {
            tally.situation("TLV of length 0");
        }
        rest = &behind[usize::from(*length)..];
    }
}

/// Counts what was cleared and what stayed, in the first slots.
fn count_records(tally: &mut Tally, given: &[u8], after: &[u8]) {
    let pairs = given.chunks_exact(RECORD).zip(after.chunks_exact(RECORD));
    for (before, after) in pairs.take(20) {
        let cleared = before != after;
        match reference::read(before) {
            Record::Learned(entry) if cleared => tally.situation(match entry.label {
                Label::Vlan(_) => "a learned record of a VLAN cleared",
                Label::Fine(_) => "a learned record of a fine-grained label cleared",
            }),
            Record::Learned(_) => tally.situation("a learned record stays"),
            Record::Configured(_) => tally.situation("a configured record stays"),
            Record::Spoilt => tally.situation("a spoilt record stays"),
            Record::Free => {}
        }
    }
}

#[test]
fn flush_answers_and_clears_as_the_paper_says() {
    let wanted = [
        &TYPES[..],
        &[
            "TLV of length 0",
            "VLAN block form",
            "VLAN block form with bytes behind",
            "ingress nickname",
            "listed nicknames",
            "ingress above 16 bits",
            "flushed: none cleared",
            "flushed: 1 cleared",
            "flushed: 2 to 9 cleared",
            "flushed: 10 to 999 cleared",
            "a learned record of a VLAN cleared",
            "a learned record of a fine-grained label cleared",
            "a learned record stays",
            "a configured record stays",
            "a spoilt record stays",
            "cut: corrupt",
            "cut: good",
            "one byte changed: corrupt",
            "one byte changed: good",
        ],
    ]
    .concat();
    run::cases(
        "flush_answers_and_clears_as_the_paper_says",
        1,
        run::FLUSH,
        &wanted,
        |random, tally| {
            let pool = Pool::new(random);
            let payload = generate::payload(random, &pool);
            let mut table = generate::table(random, &pool);
            // A long payload is cut at thousands of lengths: the table is short then.
            while payload.len() > 600 && table.len() > 40 * RECORD {
                table = generate::table(random, &pool);
            }
            let ingress = generate::ingress(random, &pool);
            if ingress > 0xFFFF {
                tally.situation("ingress above 16 bits");
            }

            let mut after = table.clone();
            let word = compare::flush(random, ingress, &payload, &mut after);
            count_answer(tally, word);
            if word & 0xFF == 67 {
                count_form(tally, &payload);
                count_records(tally, &table, &after);
            }

            // The payload cut at every length.
            for length in 0..payload.len() {
                let mut after = table.clone();
                let word = compare::flush(random, ingress, &payload[..length], &mut after);
                count_answer(tally, word);
                tally.situation(match word {
                    2 => "cut: table length",
                    15 => "cut: corrupt",
                    _ => "cut: good",
                });
                if word == 15 {
                    assert_eq!(after, table);
                }
            }

            // The payload with one byte changed.
            for _ in 0..4 {
                let mut changed = payload.clone();
                generate::change_one_byte(random, &mut changed);
                let mut after = table.clone();
                let word = compare::flush(random, ingress, &changed, &mut after);
                count_answer(tally, word);
                tally.situation(match word {
                    2 => "one byte changed: table length",
                    15 => "one byte changed: corrupt",
                    _ => "one byte changed: good",
                });
            }
        },
    );
}

/// Document 02, 2026-02: zeros after a payload, as links add them, and each value of a lone last byte.
#[test]
fn a_padded_payload_means_what_it_meant() {
    const SAME: &str = "padded: as before";
    const WHOLE: &str = "padded: a cut payload made whole";
    const CORRUPT: &str = "padded: still corrupt";
    const ZERO: &str = "a lone zero: good";
    const OTHER: &str = "a lone byte above 0: corrupt";
    const BEHIND: &str = "a byte behind VLAN blocks: good";
    run::cases(
        "a_padded_payload_means_what_it_meant",
        40,
        &[(15, "refusal 15: flush payload corrupt"), (67, "flushed")],
        &[
            SAME,
            WHOLE,
            CORRUPT,
            ZERO,
            OTHER,
            BEHIND,
            "flushed: none cleared",
            "flushed: 1 cleared",
            "flushed: 2 to 9 cleared",
        ],
        |random, tally| {
            let pool = Pool::new(random);
            let mut payload = generate::payload(random, &pool);
            if random.one_in(4) {
                payload.truncate(random.length(0, payload.len()));
            }
            let mut table = generate::good_length_table(random, &pool);
            table.truncate(20 * RECORD);
            let ingress = generate::ingress(random, &pool);
            let mut before = table.clone();
            let given = compare::flush(random, ingress, &payload, &mut before);

            for zeros in 0..=20 {
                let padded = [&payload[..], &vec![0; zeros]].concat();
                let mut after = table.clone();
                let word = compare::flush(random, ingress, &padded, &mut after);
                count_answer(tally, word);
                if given & 0xFF == 67 {
                    assert_eq!((word, &after), (given, &before), "{zeros} zeros");
                }
                tally.situation(match (given, word) {
                    (15, 15) => CORRUPT,
                    (15, _) => WHOLE,
                    _ => SAME,
                });
            }

            for last in 0..=255 {
                let longer = [&payload[..], &[last]].concat();
                let word = compare::flush(random, ingress, &longer, &mut table.clone());
                count_answer(tally, word);
                if given & 0xFF == 67 {
                    tally.situation(match (last, word) {
                        (0, _) => ZERO,
                        (_, 15) => OTHER,
                        _ => BEHIND,
                    });
                }
            }
        },
    );
}

/// A table with one learned record for each VLAN, and any payload that follows the grammar.
#[test]
fn every_vlan_is_cleared_or_stays_as_the_paper_says() {
    run::cases(
        "every_vlan_is_cleared_or_stays_as_the_paper_says",
        100,
        &[(67, "flushed")],
        &["flushed: none cleared", "flushed: 10 to 999 cleared"],
        |random, tally| {
            let pool = Pool::new(random);
            let nickname = pool.nicknames[0];
            let mut table = Vec::new();
            for label in 0x001..=0xFFE {
                table.extend(
                    Raw {
                        state: 1,
                        kind: 0,
                        label,
                        mac: pool.macs[0],
                        nickname,
                        confidence: 20,
                        seconds: 300,
                        last: 0,
                    }
                    .bytes(),
                );
            }
            let payload = generate::good_payload(random, &pool);
            let word = compare::flush(random, u32::from(nickname), &payload, &mut table);
            count_answer(tally, word);
        },
    );
}

/// The column "Length rule" of document 01.
fn length_good(kind: u8, length: u8) -> bool {
    match kind {
        1 => length % 4 == 0,
        2 => length >= 2,
        3 | 7 => length % 6 == 0,
        4 => length % 3 == 0,
        5 => length >= 3,
        6 => length == 0,
        8 => length % 12 == 0,
        _ => true,
    }
}

/// One TLV of every type and length, its value whole: only the length rule can refuse it.
#[test]
fn every_length_of_every_type_is_judged_as_the_paper_says() {
    let mut random = run::random("every_length_of_every_type_is_judged_as_the_paper_says");
    let table = Raw {
        state: 1,
        kind: 0,
        label: 10,
        mac: 0,
        nickname: 1,
        confidence: 0,
        seconds: 0,
        last: 0,
    }
    .bytes();
    for kind in 0..=u8::MAX {
        for length in 0..=u8::MAX {
            let value = vec![0; usize::from(length)];
            let payload = [&[0, 0, kind, length], &value[..]].concat();
            let word = compare::flush(&mut random, 1, &payload, &mut table.clone());
            let good = length_good(kind, length);
            assert_eq!(word != 15, good, "type {kind}, length {length}");
        }
    }
}

/// A payload of one map or block at the ends of the numberings, over a table of all labels there.
#[test]
fn maps_and_blocks_at_the_ends_of_the_numberings_mean_what_the_paper_says() {
    let mut random =
        run::random("maps_and_blocks_at_the_ends_of_the_numberings_mean_what_the_paper_says");
    let vlans = (0x001..=0x010).chain(0xFF0..=0xFFE);
    let fine = (0..=0x10).chain(0xFF_FFF0..=0xFF_FFFF);
    let labels = vlans
        .map(|label| (0, label))
        .chain(fine.map(|label| (1, label)));
    let table: Vec<u8> = labels
        .flat_map(|(kind, label)| {
            Raw {
                state: 1,
                kind,
                label,
                mac: 0,
                nickname: 1,
                confidence: 0,
                seconds: 0,
                last: 0,
            }
            .bytes()
        })
        .collect();
    let mut cleared = 0;
    let mut check = |kind: u8, value: &[u8]| {
        let payload = [&[0, 0, kind, value.len() as u8], value].concat();
        let word = compare::flush(&mut random, 1, &payload, &mut table.clone());
        assert_eq!(word & 0xFF, 67);
        cleared += word >> 8;
    };
    let ends = || (0..=0x011u32).chain(0xFEF..=0xFFF);
    for start in ends() {
        for end in ends() {
            let block = ((start << 16) | end).to_be_bytes();
            check(1, &block);
            let fine = |label: u32| {
                if label > 0xFF {
                    label | 0xFF_F000
                } else {
                    label
                }
            };
            let (start, end) = (fine(start).to_be_bytes(), fine(end).to_be_bytes());
            check(3, &[&start[1..], &end[1..]].concat());
        }
        for map in [
            [0xFF, 0xFF, 0xFF],
            [0x80, 0x00, 0x01],
            [0x7F, 0x00, 0xF0],
            [0x01, 0x80, 0x00],
        ] {
            let bytes = start.to_be_bytes();
            check(2, &[&bytes[2..], &map[..]].concat());
            check(5, &[&bytes[1..], &map[..]].concat());
            let high = (start | 0xFF_F000).to_be_bytes();
            check(5, &[&high[1..], &map[..]].concat());
        }
    }
    assert!(cleared > 10_000, "only {cleared} records were cleared");
}

/// A message of many elements of a few types, and some numbers that it names.
struct Crowd {
    payload: Vec<u8>,
    labels: Vec<u32>,
    macs: Vec<u64>,
}

impl Crowd {
    /// So many elements of each type, in TLVs as long as may be. With MACs, type 6 means every label.
    fn new(random: &mut Random, types: &[(u8, usize)]) -> Crowd {
        let mut crowd = Crowd {
            payload: vec![0, 0],
            labels: Vec::new(),
            macs: Vec::new(),
        };
        if types.iter().any(|(kind, _)| *kind >= 7) {
            crowd.payload.extend([6, 0]);
        }
        for (kind, count) in types {
            let mut left = *count;
            while left > 0 {
                let mut value = Vec::new();
                while left > 0 {
                    let element = crowd.element(random, *kind);
                    if value.len() + element.len() > 255 {
                        break;
                    }
                    value.extend(element);
                    left -= 1;
                    if *kind == 5 {
                        break;
                    }
                }
                crowd.payload.extend([*kind, value.len() as u8]);
                crowd.payload.extend(value);
            }
        }
        crowd
    }

    fn element(&mut self, random: &mut Random, kind: u8) -> Vec<u8> {
        let label = random.below(0x100_0000) as u32;
        let mac = random.below(1 << 48) & !(1 << 40);
        let three = |number: u32| number.to_be_bytes()[1..].to_vec();
        let six = |number: u64| number.to_be_bytes()[2..].to_vec();
        match kind {
            3 => {
                let end = (label + random.below(70_000) as u32).min(0xFF_FFFF);
                self.labels.extend([label, end]);
                [three(label), three(end)].concat()
            }
            4 => {
                self.labels.push(label);
                three(label)
            }
            5 => {
                let length = random.length(0, 6);
                let map = random.bytes(length);
                self.labels
                    .extend((0..48).map(|bit| label.saturating_add(bit).min(0xFF_FFFF)));
                [three(label), map].concat()
            }
            7 => {
                self.macs.push(mac);
                six(mac)
            }
            _ => {
                let end = (mac + random.below(70_000)).min((1 << 48) - 1);
                self.macs.extend([mac, end]);
                [six(mac), six(end)].concat()
            }
        }
    }

    /// A learned record of one of the numbers or of one beside it, or of another.
    fn record(&self, random: &mut Random, nickname: u16) -> Raw {
        let label = match self.labels.len() {
            0 => random.below(0x100_0000) as u32,
            _ if random.one_in(4) => random.below(0x100_0000) as u32,
            _ => random
                .pick(&self.labels)
                .wrapping_add(random.below(3) as u32)
                .wrapping_sub(1),
        };
        let mac = match self.macs.len() {
            0 => random.below(1 << 48),
            _ if random.one_in(4) => random.below(1 << 48),
            _ => random
                .pick(&self.macs)
                .wrapping_add(random.below(3))
                .wrapping_sub(1),
        };
        Raw {
            state: 1,
            kind: 1,
            label: label & 0xFF_FFFF,
            mac: mac & 0xFEFF_FFFF_FFFF,
            nickname,
            confidence: 20,
            seconds: 300,
            last: 0,
        }
    }
}

/// The library prepares areas for as many labels, maps and MACs as a message in a frame can have (docs/DECISIONS.md 50), in three sizes;
/// what finds no room is looked up in the message. Messages about as long as each area, and longer.
#[test]
fn messages_that_find_room_and_messages_that_find_none_clear_what_the_paper_says() {
    const FITS: &str = "a message that a frame can carry";
    const LONGER: &str = "a longer message";
    run::cases(
        "messages_that_find_room_and_messages_that_find_none_clear_what_the_paper_says",
        10,
        &[(67, "flushed")],
        &[
            FITS,
            LONGER,
            "flushed: 1 cleared",
            "flushed: 2 to 9 cleared",
            "flushed: 10 to 999 cleared",
        ],
        |random, tally| {
            let limit = random.pick(&[24, 48, 128, 256, 1536, 3072, 4096]);
            let near = limit + random.length(0, 6) - 3;
            let types = match random.below(7) {
                0 => vec![(3, near)],
                1 => vec![(4, near)],
                2 => vec![(5, near)],
                3 => vec![(7, near)],
                4 => vec![(8, near)],
                5 => vec![(4, near / 2), (5, near - near / 2)],
                _ => vec![(3, near / 3), (5, near / 3), (7, near / 3)],
            };
            let crowd = Crowd::new(random, &types);
            tally.situation(if crowd.payload.len() <= 9_216 {
                FITS
            } else {
                LONGER
            });
            let nickname = random.pick(&[0x0001, 0x1234, 0xFFBF]);
            let slots = random.length(1, 60);
            let mut table: Vec<u8> = (0..slots)
                .flat_map(|_| crowd.record(random, nickname).bytes())
                .collect();
            let word = compare::flush(random, u32::from(nickname), &crowd.payload, &mut table);
            count_answer(tally, word);
        },
    );
}

#[test]
fn the_header_passes_null_areas_to_flush() {
    c_program::compile_and_run("null_flush.c");
}
