//! A record of the table: state 2 bits, label kind 1, label 24, MAC 48, nickname 16, confidence 8,
//! seconds 13, multihomed 1, seven bits 0, most significant first.

use std::slice;

pub const RECORD: usize = 15;
pub const MOST_SLOTS: usize = 4096;
const LONGEST_TABLE: usize = MOST_SLOTS * RECORD;

pub const LEARNED: u64 = 1;
pub const CONFIGURED: u64 = 2;

/// A label with its kind above it: fine-grained labels carry this bit.
pub const FINE: u32 = 1 << 24;
pub const GROUP: u64 = 1 << 40;

pub type Slot = [u8; RECORD];

fn length_good(length: usize) -> bool {
    length != 0 && length <= LONGEST_TABLE && length.is_multiple_of(RECORD)
}

/// The slots of a table, or none if its length is refused.
pub unsafe fn slots<'a>(table: *const u8, length: usize) -> Option<&'a [Slot]> {
    length_good(length).then(|| slice::from_raw_parts(table.cast(), length / RECORD))
}

pub unsafe fn slots_mut<'a>(table: *mut u8, length: usize) -> Option<&'a mut [Slot]> {
    length_good(length).then(|| slice::from_raw_parts_mut(table.cast(), length / RECORD))
}

pub fn nickname_good(nickname: u64) -> bool {
    nickname.wrapping_sub(1) < 0xFFBF
}

/// Whether a label with its kind is one that a good record can hold. With the kind flipped, the good
/// ones are all below VLAN FFF but VLAN 0: two tests that no mix of kinds makes hard to predict.
pub fn label_good(label: u32) -> bool {
    let flipped = label ^ FINE;
    flipped < FINE + 0xFFF && flipped != FINE
}

/// The eight bytes of a slot from a place on, as they lie in memory: one load.
#[inline(always)]
pub fn eight<const AT: usize>(slot: &Slot) -> u64 {
    const { assert!(AT + 8 <= RECORD) };
    // SAFETY: the eight bytes are in the slot.
    unsafe { slot.as_ptr().add(AT).cast::<u64>().read_unaligned() }
}

/// The first eight bytes of a record, the bytes 6 to 13, of which two are in both, and the last byte.
#[derive(Clone, Copy)]
pub struct Bits {
    high: u64,
    low: u64,
    last: u8,
}

/// The multihomed bit in the last byte; the others are 0.
pub const MARK: u8 = 0x80;

impl Bits {
    #[inline(always)]
    pub fn of(slot: &Slot) -> Bits {
        Bits {
            high: u64::from_be(eight::<0>(slot)),
            low: u64::from_be(eight::<6>(slot)),
            last: slot[RECORD - 1],
        }
    }

    pub fn state(self) -> u64 {
        self.high >> 62
    }

    /// The label with its kind.
    pub fn label(self) -> u32 {
        (self.high >> 37) as u32 & (FINE | 0xFF_FFFF)
    }

    /// The label with its kind where the state is learned, else a number past every label.
    pub fn learned_label(self) -> u32 {
        (self.high >> 37) as u32 ^ (LEARNED as u32) << 25
    }

    pub fn is_group(self) -> bool {
        self.high & (GROUP >> 11) != 0
    }

    pub fn mac(self) -> u64 {
        (self.high & 0x1F_FFFF_FFFF) << 11 | self.low >> 37 & 0x7FF
    }

    /// The low 27 bits of the MAC, which the bytes 6 to 13 have.
    pub fn mac_low_bits(self) -> u32 {
        (self.low >> 37) as u32
    }

    pub fn nickname(self) -> u16 {
        (self.low >> 21) as u16
    }

    pub fn confidence(self) -> u8 {
        (self.low >> 13) as u8
    }

    pub fn seconds(self) -> u16 {
        self.low as u16 & 0x1FFF
    }

    pub fn is_marked(self) -> bool {
        self.last & MARK != 0
    }

    /// The bits behind the mark are 0.
    pub fn last_good(self) -> bool {
        self.last & !MARK == 0
    }

    /// Label, MAC, nickname and the last bits are such as a good record has.
    pub fn entry_good(self) -> bool {
        label_good(self.label())
            && !self.is_group()
            && nickname_good(u64::from(self.nickname()))
            && self.last_good()
    }
}

/// The lowest bit of the nickname in the four bytes that hold it.
pub const NICKNAME_SHIFT: u32 = 5;

/// The four bytes that hold the nickname, as they lie in memory.
#[inline(always)]
pub fn nickname_bits(slot: &Slot) -> u32 {
    // SAFETY: the four bytes are in the slot.
    unsafe { slot.as_ptr().add(8).cast::<u32>().read_unaligned() }
}

/// Whether a slot is learned by its state, which its first byte tells; it may be spoilt.
#[inline(always)]
pub fn state_learned(slot: &Slot) -> bool {
    u64::from(slot[0] >> 6) == LEARNED
}

/// Whether a slot is free. Most that are not differ from 0 in the first eight bytes.
#[inline(always)]
pub fn is_free(slot: &Slot) -> bool {
    eight::<0>(slot) == 0 && eight::<7>(slot) == 0
}

/// The bytes of a learned record.
pub fn learned(
    label: u32,
    mac: u64,
    nickname: u16,
    confidence: u8,
    seconds: u16,
    marked: bool,
) -> Slot {
    let bits = u128::from(LEARNED) << 118
        | u128::from(label) << 93
        | u128::from(mac) << 45
        | u128::from(nickname) << 29
        | u128::from(confidence) << 21
        | u128::from(seconds) << 8
        | u128::from(marked) << 7;
    let [_, bytes @ ..] = bits.to_be_bytes();
    bytes
}
