//! Lookup, ageing, the lowest spoilt slot. Learning stands in homes.rs.

use super::record::{
    eight, is_free, label_good, learned, nickname_good, slots, slots_mut, state_learned, Bits,
    Slot, CONFIGURED, FINE, GROUP, LEARNED, RECORD,
};
use super::refusal;

const DONE: u64 = 64;
const FOUND: u64 = 64;
const SLOT: u64 = 64;
const NONE: u64 = 65;

/// A label and an address as they lie in a record.
pub struct Key {
    /// Bytes 1 to 8, which hold nothing else.
    middle: u64,
    /// The low six bits of byte 0.
    first: u8,
    /// The high three bits of byte 9.
    last: u8,
}

impl Key {
    /// None for values that no good record can hold.
    pub fn new(label: u32, mac: u64) -> Option<Key> {
        if !label_good(label) || label >= 2 * FINE || mac >= 1 << 48 || mac & GROUP != 0 {
            return None;
        }
        let record = learned(label, mac, 0, 0, 0, false);
        Some(Key {
            middle: eight::<1>(&record),
            first: record[0] & 0x3F,
            last: record[9] & 0xE0,
        })
    }

    /// Whether the bytes 1 to 8 agree: a single comparison that few slots pass.
    #[inline(always)]
    pub fn may_be_in(&self, slot: &Slot) -> bool {
        eight::<1>(slot) == self.middle
    }

    /// Whether a slot whose bytes 1 to 8 agree holds the label and address in a good record.
    pub fn is_in(&self, slot: &Slot) -> bool {
        let bits = Bits::of(slot);
        slot[0] & 0x3F == self.first
            && slot[9] & 0xE0 == self.last
            && matches!(bits.state(), LEARNED | CONFIGURED)
            && nickname_good(u64::from(bits.nickname()))
            && bits.last_good()
    }

    /// The lowest slot with the label and address.
    #[inline(always)]
    fn find(&self, slots: &[Slot]) -> Option<usize> {
        lowest(slots, |slot| self.may_be_in(slot), |slot| self.is_in(slot))
    }
}

/// The slots of a round: one jump back for eight comparisons.
pub const ROUND: usize = 8;

/// The lowest slot that passes both tests. The first is a single comparison that few slots pass.
#[inline(always)]
pub fn lowest(
    slots: &[Slot],
    first: impl Fn(&Slot) -> bool,
    second: impl Fn(&Slot) -> bool,
) -> Option<usize> {
    let (rounds, rest) = slots.as_chunks::<ROUND>();
    let both = |slot: &Slot| first(slot) && second(slot);
    for (number, round) in rounds.iter().enumerate() {
        if round.iter().any(&first) {
            if let Some(place) = round.iter().position(both) {
                return Some(number * ROUND + place);
            }
        }
    }
    let place = rest.iter().position(both)?;
    Some(rounds.len() * ROUND + place)
}

#[inline(never)]
pub unsafe extern "C" fn lookup(
    kind: u32,
    label: u32,
    mac: u64,
    table: *const u8,
    table_len: usize,
) -> u64 {
    let Some(slots) = slots(table, table_len) else {
        return refusal::TABLE_LENGTH;
    };
    if kind > 1 || label >= FINE {
        return NONE;
    }
    let Some(key) = Key::new((kind * FINE) | label, mac) else {
        return NONE;
    };
    match key.find(slots) {
        Some(slot) => FOUND | u64::from(Bits::of(&slots[slot]).nickname()) << 8,
        None => NONE,
    }
}

#[inline(never)]
pub unsafe extern "C" fn age(seconds: u16, table: *mut u8, table_len: usize) -> u64 {
    let Some(slots) = slots_mut(table, table_len) else {
        return refusal::TABLE_LENGTH;
    };
    for slot in slots {
        if !state_learned(slot) {
            continue;
        }
        let bits = Bits::of(slot);
        if !bits.entry_good() {
            continue;
        }
        if bits.seconds() <= seconds {
            *slot = [0; RECORD];
        } else {
            // The seconds are the low bits of these two bytes: nothing is borrowed from above.
            let [high, low] = [slot[12], slot[13]];
            let left = u16::from_be_bytes([high, low]) - seconds;
            [slot[12], slot[13]] = left.to_be_bytes();
        }
    }
    DONE
}

#[inline(never)]
pub unsafe extern "C" fn spoilt(table: *const u8, table_len: usize) -> u64 {
    let Some(slots) = slots(table, table_len) else {
        return refusal::TABLE_LENGTH;
    };
    let spoilt = slots.iter().position(|slot| {
        let bits = Bits::of(slot);
        let held = matches!(bits.state(), LEARNED | CONFIGURED) && bits.entry_good();
        !held && !is_free(slot)
    });
    match spoilt {
        Some(slot) => SLOT | (slot as u64) << 8,
        None => NONE,
    }
}

/// The lowest free slot, and how many of state 0 were unpacked up to it.
#[inline(never)]
pub unsafe extern "C" fn free_slot(table: *const u8, table_len: usize) -> u64 {
    let Some(slots) = slots(table, table_len) else {
        return refusal::TABLE_LENGTH;
    };
    let state_0 = |slot: &Slot| slot[0] < 0x40;
    let mut unpacked = 0;
    for (number, round) in slots.chunks(ROUND).enumerate() {
        if !round.iter().any(state_0) {
            continue;
        }
        for (place, slot) in round.iter().enumerate() {
            if state_0(slot) {
                unpacked += 1;
                if is_free(slot) {
                    return SLOT | ((number * ROUND + place) as u64) << 8 | unpacked << 32;
                }
            }
        }
    }
    NONE | unpacked << 32
}
