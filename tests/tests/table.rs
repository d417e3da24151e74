//! Lookup, ageing and the lowest spoilt slot, compared through the C boundary.

use shinglebar_tests::compare;
use shinglebar_tests::generate::{self, Pool, Raw, MARK};
use shinglebar_tests::reference::{self, Record, OLD_RECORD, RECORD, TABLE};
use shinglebar_tests::run::{self, Tally};

/// Why a record is spoilt, the first reason in the order of document 01.
fn spoilt_reason(record: &Raw) -> &'static str {
    match record {
        Raw { state: 3, .. } => "spoilt: state 3",
        Raw { state: 0, .. } => "spoilt: state 0 with another bit set",
        Raw {
            kind: 0, label: 0, ..
        } => "spoilt: VLAN 0",
        Raw {
            kind: 0,
            label: 0xFFF,
            ..
        } => "spoilt: VLAN FFF",
        Raw {
            kind: 0,
            label: 0x1000..=0xFFFF,
            ..
        } => "spoilt: VLAN label above 12 bits",
        Raw {
            kind: 0,
            label: 0x1_0000..,
            ..
        } => "spoilt: VLAN label above 16 bits",
        Raw { mac, .. } if mac >> 40 & 1 == 1 => "spoilt: group MAC",
        Raw { nickname: 0, .. } => "spoilt: nickname 0",
        Raw {
            nickname: 0xFFC0.., ..
        } => "spoilt: nickname FFC0 to FFFF",
        Raw { last: MARK.., .. } => "spoilt: a bit behind the multihomed one, which is set",
        _ => "spoilt: a bit behind the multihomed one, which is not",
    }
}

const SPOILT_REASONS: &[&str] = &[
    "spoilt: state 3",
    "spoilt: state 0 with another bit set",
    "spoilt: VLAN 0",
    "spoilt: VLAN FFF",
    "spoilt: VLAN label above 12 bits",
    "spoilt: VLAN label above 16 bits",
    "spoilt: group MAC",
    "spoilt: nickname 0",
    "spoilt: nickname FFC0 to FFFF",
    "spoilt: a bit behind the multihomed one, which is set",
    "spoilt: a bit behind the multihomed one, which is not",
];

fn count_length(tally: &mut Tally, table: &[u8]) {
    tally.situation(match table.len() {
        0 => "length 0",
        TABLE => "length 61,440",
        length if length > TABLE && length.is_multiple_of(RECORD) => {
            "length over 61,440, a multiple"
        }
        length if length > TABLE => "length over 61,440, no multiple",
        length if length.is_multiple_of(RECORD) => "length good",
        length if length.is_multiple_of(OLD_RECORD) => "length of an older table",
        _ => "length no multiple",
    });
}

const LENGTHS: &[&str] = &[
    "length 0",
    "length 61,440",
    "length over 61,440, a multiple",
    "length over 61,440, no multiple",
    "length no multiple",
    "length of an older table",
    "length good",
];

fn matching_slots(kind: u32, label: u32, mac: u64, table: &[u8]) -> Vec<usize> {
    let mut matching = Vec::new();
    for (slot, bytes) in table.chunks_exact(RECORD).enumerate() {
        let record = Raw::of(bytes);
        if (u32::from(record.kind), record.label, record.mac) == (kind, label, mac) {
            matching.push(slot);
        }
    }
    matching
}

#[test]
fn lookup_answers_as_the_paper_says() {
    let wanted = [
        LENGTHS,
        &[
            "found in slot 0",
            "found in the last slot of several",
            "found in between",
            "found, and higher slots have the same label and address",
            "none though spoilt records have the label and address",
            "none for a kind above 1",
            "none for a label above 24 bits",
            "none for an address above 48 bits",
        ],
    ]
    .concat();
    run::cases(
        "lookup_answers_as_the_paper_says",
        1,
        run::LOOKUP,
        &wanted,
        |random, tally| {
            let pool = Pool::new(random);
            let table = generate::table(random, &pool);
            let (kind, label, mac) = generate::key(random, &pool, &table);
            let word = compare::lookup(random, kind, label, mac, &table);
            tally.word(word);
            count_length(tally, &table);
            let matching = matching_slots(kind, label, mac, &table);
            let good = |slot: &&usize| {
                matches!(
                    reference::read(&table[**slot * RECORD..][..RECORD]),
                    Record::Learned(_) | Record::Configured(_)
                )
            };
            let good_slots: Vec<&usize> = matching.iter().filter(good).collect();
            if word & 0xFF == 64 {
                let last = table.len() / RECORD - 1;
                tally.situation(match good_slots[0] {
                    0 => "found in slot 0",
                    slot if *slot == last => "found in the last slot of several",
                    _ => "found in between",
                });
                if good_slots.len() > 1 {
                    tally.situation("found, and higher slots have the same label and address");
                }
            }
            if word == 65 {
                if !matching.is_empty() {
                    tally.situation("none though spoilt records have the label and address");
                }
                if kind > 1 {
                    tally.situation("none for a kind above 1");
                }
                if label > 0xFF_FFFF {
                    tally.situation("none for a label above 24 bits");
                }
                if mac >= 1 << 48 {
                    tally.situation("none for an address above 48 bits");
                }
            }
        },
    );
}

#[test]
fn age_answers_and_leaves_the_table_as_the_paper_says() {
    let wanted = [
        LENGTHS,
        &[
            "a learned record freed at its very second",
            "a learned record freed later",
            "a learned record shortened",
            "a configured record stays",
            "a spoilt record stays",
            "aged by 0",
            "aged by more than a record holds",
        ],
    ]
    .concat();
    run::cases(
        "age_answers_and_leaves_the_table_as_the_paper_says",
        1,
        run::AGE,
        &wanted,
        |random, tally| {
            let pool = Pool::new(random);
            let mut table = generate::table(random, &pool);
            let given = table.clone();
            let seconds = generate::seconds(random, &table);
            let word = compare::age(random, seconds, &mut table);
            tally.word(word);
            count_length(tally, &table);
            if word != 64 {
                return;
            }
            for record in given.chunks_exact(RECORD).take(20) {
                match reference::read(record) {
                    Record::Free => {}
                    Record::Spoilt => tally.situation("a spoilt record stays"),
                    Record::Configured(_) => tally.situation("a configured record stays"),
                    Record::Learned(entry) => tally.situation(match entry.seconds {
                        left if left == seconds => "a learned record freed at its very second",
                        left if left < seconds => "a learned record freed later",
                        _ => "a learned record shortened",
                    }),
                }
            }
            if seconds == 0 {
                tally.situation("aged by 0");
            }
            if seconds > 8191 {
                tally.situation("aged by more than a record holds");
            }
        },
    );
}

#[test]
fn spoilt_names_the_lowest_spoilt_slot_as_the_paper_says() {
    let wanted = [
        LENGTHS,
        SPOILT_REASONS,
        &["slot 0", "the last slot of several", "a slot in between"],
    ]
    .concat();
    run::cases(
        "spoilt_names_the_lowest_spoilt_slot_as_the_paper_says",
        1,
        run::SPOILT,
        &wanted,
        |random, tally| {
            let pool = Pool::new(random);
            let table = generate::table(random, &pool);
            let word = compare::spoilt(random, &table);
            tally.word(word);
            count_length(tally, &table);
            if word & 0xFF == 64 {
                let slot = (word >> 8) as usize;
                tally.situation(match slot {
                    0 => "slot 0",
                    _ if slot == table.len() / RECORD - 1 => "the last slot of several",
                    _ => "a slot in between",
                });
                let record = Raw::of(&table[slot * RECORD..][..RECORD]);
                tally.situation(spoilt_reason(&record));
            }
        },
    );
}

#[test]
fn every_table_length_is_judged_as_the_paper_says() {
    let mut random = run::random("every_table_length_is_judged_as_the_paper_says");
    let mut accepted = 0;
    for length in (0..=300)
        .chain(57_300..=57_400)
        .chain(61_400..=61_500)
        .chain([100_000])
    {
        let mut table = random.bytes(length);
        let expected = length > 0 && length % 15 == 0 && length <= 61_440;
        let lookup = compare::lookup(&mut random, 0, 1, 2, &table);
        let spoilt = compare::spoilt(&mut random, &table);
        let age = compare::age(&mut random, 3, &mut table);
        for word in [lookup, spoilt, age] {
            assert_eq!(word != 2, expected, "length {length}");
        }
        accepted += u32::from(expected);
    }
    assert_eq!(accepted, 20 + 7 + 3);
}

/// The lengths at which the widths meet: fits both, the longest older table, the longest table, one record more.
#[test]
fn the_lengths_of_older_tables_are_no_lengths_of_tables() {
    let mut random = run::random("the_lengths_of_older_tables_are_no_lengths_of_tables");
    for (length, good) in [
        (14, false),
        (15, true),
        (210, true),
        (224, false),
        (57_330, true),
        (57_344, false),
        (61_440, true),
        (61_455, false),
    ] {
        let table = vec![0; length];
        let refused = compare::spoilt(&mut random, &table) == 2;
        assert_eq!(refused, !good, "length {length}");
    }
}

/// Good records of both states and kinds, with each single bit and each pair of bits changed.
#[test]
fn every_pair_of_bits_of_a_record_is_judged_as_the_paper_says() {
    let mut random = run::random("every_pair_of_bits_of_a_record_is_judged_as_the_paper_says");
    let mut spoilt = 0;
    for (state, kind) in [(0, 0), (1, 0), (1, 1), (2, 0), (2, 1)] {
        let record = Raw {
            state,
            kind,
            label: if state == 0 { 0 } else { 10 },
            mac: if state == 0 { 0 } else { 0x0200_0000_0001 },
            nickname: if state == 0 { 0 } else { 0x1234 },
            confidence: if state == 0 { 0 } else { 20 },
            seconds: if state == 0 { 0 } else { 300 },
            last: 0,
        };
        for first in 0..8 * RECORD {
            for second in 0..=first {
                let mut table = record.bytes();
                table[first / 8] ^= 0x80 >> (first % 8);
                if second < first {
                    table[second / 8] ^= 0x80 >> (second % 8);
                }
                let changed = Raw::of(&table);
                spoilt += u32::from(compare::spoilt(&mut random, &table) == 64);
                for kind in 0..=1 {
                    compare::lookup(&mut random, kind, changed.label, changed.mac, &table);
                    compare::lookup(&mut random, kind, record.label, record.mac, &table);
                }
                let seconds = random.pick(&[0, 299, 300, 301, changed.seconds]);
                compare::age(&mut random, seconds, &mut table);
            }
        }
    }
    assert!(spoilt > 10_000, "only {spoilt} of the records were spoilt");
}
