//! Messages that fill a frame and are made to cost much.

use super::{call, row, unknown, Tlv, FLUSH, INGRESS, NONE_CLEARED};
use crate::buffer::Buffer;
use crate::inputs::{
    address, entries, fine, mac, table, vlan_blocks, Entry, Label, Payload, SLOTS,
};
use crate::measure::Areas;
use crate::random::Random;
use crate::report::{Axis, Curve, Report};

/// The bytes of the longest message.
const LENGTH: usize = 9_000;
/// The lengths of the messages along a curve.
const LENGTHS: [usize; 5] = [100, 300, 1_000, 3_000, LENGTH];

/// The bytes of the longest bit map of type 5, after its start.
const LONGEST_MAP: usize = 252;

const EMPTY_TLVS: &str = "flush, worst: 9,000 bytes of empty unknown TLVs, type 6";
/// The types that it is made of.
const UNKNOWN_TYPES: (u64, u64) = (9, 255);

/// A message of TLVs of one type.
struct Worst {
    name: &'static str,
    kind: u8,
    /// A first number of a block or map, or the only one.
    number: fn(&mut Random) -> u64,
    element: fn(u64) -> Vec<u8>,
    /// The elements of a TLV.
    elements: usize,
    /// The number of a record, given those of the message.
    record: fn(&mut Random, &[u64]) -> u64,
    /// Gives a number to an entry, as its label or its address.
    set: fn(&mut Entry, u64),
}

const NONE_MEANT: &str = "flush, worst: 9,000 bytes of type 4 labels, none meant";

const TYPE_4_LABELS: Worst = Worst {
    name: "flush, worst: 9,000 bytes of type 4 labels",
    kind: 4,
    number: any_fine,
    element: |number| fine(number as u32).to_vec(),
    elements: 85,
    record: |random, numbers| one_in_eight(random, numbers, any_fine),
    set: set_fine,
};

const TYPE_7_MACS: Worst = Worst {
    name: "flush, worst: 9,000 bytes of type 7 MACs with type 6",
    kind: 7,
    number: mac,
    element: |number| address(number).to_vec(),
    elements: 42,
    record: |random, numbers| one_in_eight(random, numbers, mac),
    set: set_mac,
};

/// VLANs of the upper half; most records are of the lower.
const TYPE_1_BLOCKS: Worst = Worst {
    name: "flush, worst: 9,000 bytes of type 1 blocks",
    kind: 1,
    number: |random| random.between(0x800, 0xFF0),
    element: |number| vlan_blocks(&[(number as u16, number as u16 + 3)]),
    elements: 63,
    record: |random, numbers| one_in_eight(random, numbers, |random| random.between(0x001, 0x7FF)),
    set: |entry, number| entry.label = Label::Vlan(number as u16),
};

/// But for type 4 labels of which none is meant, each means one record in eight or so by what its type
/// is about.
const WORST: [Worst; 8] = [
    TYPE_4_LABELS,
    Worst {
        name: NONE_MEANT,
        record: |random, numbers| loop {
            let label = any_fine(random);
            if !numbers.contains(&label) {
                break label;
            }
        },
        ..TYPE_4_LABELS
    },
    Worst {
        name: "flush, worst: 9,000 bytes of type 3 blocks",
        kind: 3,
        number: low_fine,
        element: |number| [fine(number as u32), fine(number as u32 + 0xF)].concat(),
        elements: 42,
        record: |random, numbers| one_in_eight(random, numbers, low_fine),
        set: set_fine,
    },
    TYPE_7_MACS,
    Worst {
        name: "flush, worst: 9,000 bytes of type 8 blocks with type 6",
        kind: 8,
        number: mac,
        element: |number| [address(number), address(number | 0xFF)].concat(),
        elements: 21,
        record: |random, numbers| one_in_eight(random, numbers, mac),
        set: set_mac,
    },
    Worst {
        name: "flush, worst: 9,000 bytes of one-byte type 5 maps",
        kind: 5,
        number: low_fine,
        element: |number| [&fine(number as u32)[..], &[0xA5]].concat(),
        elements: 1,
        record: |random, numbers| one_in_eight(random, numbers, low_fine),
        set: set_fine,
    },
    // Half of the bits are set, and one record in four is under a map.
    Worst {
        name: "flush, worst: 9,000 bytes of long type 5 maps",
        kind: 5,
        number: low_fine,
        element: |number| [&fine(number as u32)[..], &random_map(number)].concat(),
        elements: 1,
        record: |random, numbers| {
            let bits = 8 * LONGEST_MAP as u64;
            let start = one_in(random, 4, numbers, any_fine);
            (start + random.between(0, bits - 1)).min(0xFF_FFFF)
        },
        set: set_fine,
    },
    TYPE_1_BLOCKS,
];

fn any_fine(random: &mut Random) -> u64 {
    random.between(0, 0xFF_FFFF)
}

/// A label with room for a block or map after it.
fn low_fine(random: &mut Random) -> u64 {
    random.between(0, 0xFF_0000)
}

fn random_map(seed: u64) -> Vec<u8> {
    let mut random = Random::new(seed);
    (0..LONGEST_MAP).map(|_| random.byte()).collect()
}

fn one_in_eight(random: &mut Random, numbers: &[u64], other: fn(&mut Random) -> u64) -> u64 {
    one_in(random, 8, numbers, other)
}

/// One of the numbers once in so many times, else another.
fn one_in(random: &mut Random, count: u64, numbers: &[u64], other: fn(&mut Random) -> u64) -> u64 {
    if random.one_in(count) {
        random.pick(numbers)
    } else {
        other(random)
    }
}

fn set_fine(entry: &mut Entry, number: u64) {
    entry.label = Label::Fine(number as u32);
}

fn set_mac(entry: &mut Entry, number: u64) {
    entry.mac = number;
}

impl Worst {
    /// TLVs for a payload of up to so many bytes, and the numbers of their elements.
    fn tlvs(&self, random: &mut Random, length: usize) -> (Vec<Tlv>, Vec<u64>) {
        let mut tlvs: Vec<Tlv> = match self.kind {
            7 | 8 => vec![(6, Vec::new())],
            _ => Vec::new(),
        };
        let mut numbers = Vec::new();
        let mut left = length - 4;
        let element_length = (self.element)(0).len();
        loop {
            let room = left.saturating_sub(2) / element_length;
            let chosen: Vec<u64> = (0..self.elements.min(room))
                .map(|_| (self.number)(random))
                .collect();
            if chosen.is_empty() {
                break;
            }
            let value: Vec<u8> = chosen
                .iter()
                .flat_map(|number| (self.element)(*number))
                .collect();
            left -= 2 + value.len();
            tlvs.push((self.kind, value));
            numbers.extend(chosen);
        }
        (tlvs, numbers)
    }

    /// The TLVs, and records of which every one is meant by its nickname.
    fn message(&self, length: usize) -> (Vec<Tlv>, Vec<Entry>) {
        let mut random = Random::new(6);
        let (tlvs, numbers) = self.tlvs(&mut random, length);
        let mut entries = entries(&mut random);
        for entry in &mut entries {
            entry.nickname = INGRESS;
            (self.set)(entry, (self.record)(&mut random, &numbers));
        }
        (tlvs, entries)
    }

    fn growth(&self, report: &Report, name: &'static str) {
        let curve = Curve {
            name,
            axis: Axis::PayloadBytes,
        };
        for length in LENGTHS {
            let (tlvs, entries) = self.message(length);
            let payload: &[u8] = &Buffer::input(&Payload::new(&[]).tlvs(&tlvs));
            report.point(
                curve,
                length,
                FLUSH,
                Areas::new(&table(&entries), &[]),
                |word| word & 0xFF == 67 && word != NONE_CLEARED,
                |flush, lent| call(flush, payload, lent),
            );
        }
    }
}

/// Empty TLVs of unknown types and a type 6 after them, which means every label; and the records, every
/// one meant by its nickname.
fn empty_tlvs() -> (Vec<Tlv>, Vec<Entry>) {
    let mut random = Random::new(8);
    let (first, last) = UNKNOWN_TYPES;
    let kinds: Vec<u8> = (0..(LENGTH - 4) / 2)
        .map(|_| random.between(first, last) as u8)
        .collect();
    let tlvs = kinds.into_iter().chain([6]).map(|kind| (kind, Vec::new()));
    let mut entries = entries(&mut random);
    for entry in &mut entries {
        entry.nickname = INGRESS;
    }
    (tlvs.collect(), entries)
}

/// The longest message of labels, and its records.
pub fn labels() -> (Vec<Tlv>, Vec<Entry>) {
    TYPE_4_LABELS.message(LENGTH)
}

/// The longest messages about one record, with what brings it in their last TLV: labels, MACs with type 6, and a type 6 after
/// empty unknown TLVs.
pub fn for_one() -> [(&'static str, Vec<Tlv>, Entry); 3] {
    let with_last = |worst: &Worst| {
        let mut random = Random::new(6);
        let (tlvs, numbers) = worst.tlvs(&mut random, LENGTH);
        let mut entry = Entry::any(&mut random);
        entry.nickname = INGRESS;
        (worst.set)(&mut entry, *numbers.last().expect("a number"));
        (tlvs, entry)
    };
    let (labels, first) = with_last(&TYPE_4_LABELS);
    let (macs, second) = with_last(&TYPE_7_MACS);
    let (empty, third) = empty_tlvs();
    [
        ("9,000 bytes of type 4 labels", labels, first),
        ("9,000 bytes of type 7 MACs with type 6", macs, second),
        ("9,000 bytes of empty unknown TLVs, type 6", empty, third[0]),
    ]
}

/// The longest messages of labels, which the small model skips, of VLAN blocks, and of empty unknown TLVs.
pub fn longest() -> [(&'static str, Vec<Tlv>, Vec<Entry>); 3] {
    let (labels, first) = TYPE_4_LABELS.message(LENGTH);
    let (blocks, second) = TYPE_1_BLOCKS.message(LENGTH);
    let (empty, third) = empty_tlvs();
    [
        ("9,000 bytes of type 4 labels", labels, first),
        ("9,000 bytes of type 1 blocks", blocks, second),
        ("9,000 bytes of empty unknown TLVs, type 6", empty, third),
    ]
}

pub fn rows(report: &Report) {
    for worst in &WORST {
        let (tlvs, entries) = worst.message(LENGTH);
        let payload = Payload::new(&[]).tlvs(&tlvs);
        row(
            report,
            worst.name,
            &payload,
            &entries,
            worst.name != NONE_MEANT,
        );
    }
    let (tlvs, entries) = empty_tlvs();
    let payload = Payload::new(&[]).tlvs(&tlvs);
    row(report, EMPTY_TLVS, &payload, &entries, true);
}

pub fn growth(report: &Report) {
    TYPE_4_LABELS.growth(report, "flush: type 4 labels");
    TYPE_1_BLOCKS.growth(report, "flush: type 1 VLAN blocks");
}

/// The same messages about eight nicknames that no record has: judged alone, but for one slot, and on
/// the longest table.
pub fn unknown_nicknames(report: &Report) {
    for worst in &WORST {
        let (tlvs, entries) = worst.message(LENGTH);
        unknown_row(report, worst.name, &tlvs, &entries);
    }
    let (tlvs, entries) = empty_tlvs();
    unknown_row(report, EMPTY_TLVS, &tlvs, &entries);
}

fn unknown_row(report: &Report, name: &'static str, tlvs: &[Tlv], entries: &[Entry]) {
    let payload: &[u8] = &Buffer::input(&Payload::new(&unknown()).tlvs(tlvs));
    let curve = Curve {
        name,
        axis: Axis::SlotsInVain,
    };
    for slots in [1, SLOTS] {
        report.point(
            curve,
            slots,
            FLUSH,
            Areas::new(&table(&entries[..slots]), &[]),
            |word| word == NONE_CLEARED,
            |flush, lent| call(flush, payload, lent),
        );
    }
}
