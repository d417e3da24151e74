//! One record of the address table.

use super::{is_group, is_nickname};

/// "records of 14 bytes" (document 01): what is widened.
pub const OLD_RECORD: usize = 14;

/// Document 02, 2026-12: "The record grows to 15 bytes".
pub const RECORD: usize = 15;

/// "1 to 4,096 records"
pub const SLOTS: usize = 4_096;

/// "multiples of 15 up to 61,440"
pub const TABLE: usize = 61_440;

/// "An entry read from a record holds its label as either a VLAN or a fine-grained label." "VLAN 10
/// and fine-grained 10 are different labels."
#[derive(Clone, Copy, Debug, PartialEq, Eq)]
pub enum Label {
    Vlan(u16),
    Fine(u32),
}

impl Label {
    /// "VLAN 0 and FFF are refused"; all 24 bits are judged.
    pub fn vlan(number: u32) -> Option<Label> {
        match number {
            0x001..=0xFFE => Some(Label::Vlan(number as u16)),
            _ => None,
        }
    }

    /// "all 24-bit values are allowed"
    pub fn fine(number: u32) -> Option<Label> {
        match number {
            0..=0xFF_FFFF => Some(Label::Fine(number)),
            _ => None,
        }
    }

    /// "label kind 1 (0 VLAN, 1 fine-grained)"
    pub fn kind(self) -> u8 {
        match self {
            Label::Vlan(_) => 0,
            Label::Fine(_) => 1,
        }
    }

    pub fn number(self) -> u32 {
        match self {
            Label::Vlan(number) => u32::from(number),
            Label::Fine(number) => number,
        }
    }
}

#[derive(Clone, Copy, Debug, PartialEq, Eq)]
pub struct Entry {
    pub label: Label,
    pub mac: u64,
    pub nickname: u16,
    pub confidence: u8,
    pub seconds: u16,
    /// "one multihomed bit"
    pub multihomed: bool,
}

#[derive(Clone, Copy, Debug, PartialEq, Eq)]
pub enum Record {
    Free,
    Spoilt,
    Learned(Entry),
    Configured(Entry),
}

/// "A record is bit-packed, most significant first: state 2 bits (0 free, 1 learned, 2 configured),
/// label kind 1 (0 VLAN, 1 fine-grained), label 24, MAC 48, nickname 16, confidence 8, seconds 13."
/// "after the seconds one multihomed bit, then 7 zero bits, else spoilt" (document 02, 2026-12)
pub fn read(bytes: &[u8]) -> Record {
    let bits = bytes
        .iter()
        .fold(0, |sum, &byte| (sum << 8) | u128::from(byte));
    let field = |lowest: u32, width: u32| ((bits >> lowest) & ((1 << width) - 1)) as u64;
    let state = field(118, 2);
    let kind = field(117, 1);
    let number = field(93, 24) as u32;
    let mac = field(45, 48);
    let nickname = field(29, 16);
    let confidence = field(21, 8) as u8;
    let seconds = field(8, 13) as u16;
    let multihomed = field(7, 1) == 1;
    let zero_bits = field(0, 7);

    // "Free is all zero."
    if bits == 0 {
        return Record::Free;
    }
    // "Any other record is spoilt if it has state 3, state 0 with another bit set, [..]"
    if state == 3 || state == 0 {
        return Record::Spoilt;
    }
    // "[..] a VLAN label outside 1 to FFE, [..]"
    let label = if kind == 0 {
        Label::vlan(number)
    } else {
        Label::fine(number)
    };
    let Some(label) = label else {
        return Record::Spoilt;
    };
    // "[..] a group MAC, or a nickname outside 0001 to FFBF."
    if is_group(mac) || !is_nickname(nickname) {
        return Record::Spoilt;
    }
    // "then 7 zero bits, else spoilt"
    if zero_bits != 0 {
        return Record::Spoilt;
    }
    let entry = Entry {
        label,
        mac,
        nickname: nickname as u16,
        confidence,
        seconds,
        multihomed,
    };
    if state == 1 {
        Record::Learned(entry)
    } else {
        Record::Configured(entry)
    }
}

/// The bytes of a learned record, or of a configured one.
pub fn write(learned: bool, entry: &Entry) -> [u8; RECORD] {
    let state: u128 = if learned { 1 } else { 2 };
    let bits = (state << 118)
        | (u128::from(entry.label.kind()) << 117)
        | (u128::from(entry.label.number()) << 93)
        | (u128::from(entry.mac) << 45)
        | (u128::from(entry.nickname) << 29)
        | (u128::from(entry.confidence) << 21)
        | (u128::from(entry.seconds) << 8)
        | (u128::from(entry.multihomed) << 7);
    let [_, bytes @ ..] = bits.to_be_bytes();
    bytes
}
