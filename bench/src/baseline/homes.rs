//! Learning, with several homes of a station, and widening.

use std::slice;

use super::record::{eight, is_free, learned, Bits, Slot, CONFIGURED, MOST_SLOTS, RECORD};
use super::refusal;
use super::table::{lowest, Key, ROUND};

/// What learning did, with the numbers of the answer.
#[derive(Clone, Copy)]
pub enum Learning {
    Learned = 0,
    Refreshed = 1,
    Kept = 2,
    Full = 3,
}

/// What one pass over the table finds of a label and an address.
#[derive(Default)]
struct Homes {
    configured: bool,
    lowest: Option<usize>,
    unmarked: Option<usize>,
    /// The lowest that is marked and has the nickname.
    marked: Option<usize>,
    several: bool,
}

impl Homes {
    fn add(&mut self, number: usize, slot: &Slot, nickname: u16) {
        let bits = Bits::of(slot);
        self.several |= self.lowest.is_some();
        self.lowest = self.lowest.or(Some(number));
        if bits.state() == CONFIGURED {
            self.configured = true;
        } else if !bits.is_marked() {
            self.unmarked = self.unmarked.or(Some(number));
        } else if bits.nickname() == nickname {
            self.marked = self.marked.or(Some(number));
        }
    }

    #[inline(always)]
    fn find(slots: &[Slot], key: &Key, nickname: u16) -> Homes {
        let mut homes = Homes::default();
        let (rounds, rest) = slots.as_chunks::<ROUND>();
        let mut look = |first: usize, part: &[Slot]| {
            for (place, slot) in part.iter().enumerate() {
                if key.may_be_in(slot) && key.is_in(slot) {
                    homes.add(first + place, slot, nickname);
                }
            }
        };
        for (number, round) in rounds.iter().enumerate() {
            if round.iter().any(|slot| key.may_be_in(slot)) {
                look(number * ROUND, round);
            }
        }
        look(rounds.len() * ROUND, rest);
        homes
    }
}

/// Clears the records of a pair behind a slot, which is its lowest; none is configured.
#[cold]
fn clear_others(slots: &mut [Slot], key: &Key, lowest: usize) {
    let clear = |part: &mut [Slot]| {
        for slot in part {
            if key.may_be_in(slot) && key.is_in(slot) {
                *slot = [0; RECORD];
            }
        }
    };
    let (rounds, rest) = slots[lowest + 1..].as_chunks_mut::<ROUND>();
    for round in rounds {
        if round.iter().any(|slot| key.may_be_in(slot)) {
            clear(round);
        }
    }
    clear(rest);
}

/// Learns a label and an address from a frame that is marked or not. The arguments are such as a good record can hold.
pub fn learn(
    slots: &mut [Slot],
    label: u32,
    mac: u64,
    nickname: u16,
    confidence: u8,
    seconds: u16,
    marked: bool,
) -> Learning {
    let Some(key) = Key::new(label, mac) else {
        return Learning::Full;
    };
    let homes = Homes::find(slots, &key, nickname);
    if homes.configured {
        return Learning::Kept;
    }
    let record = learned(label, mac, nickname, confidence, seconds, marked);
    let rival = match marked {
        true => homes.unmarked.or(homes.marked),
        false => homes.lowest,
    };
    if let Some(slot) = rival {
        if Bits::of(&slots[slot]).confidence() > confidence {
            return Learning::Kept;
        }
        if !marked && homes.several {
            clear_others(slots, &key, slot);
        }
        slots[slot] = record;
        return Learning::Refreshed;
    }
    match lowest(slots, |slot| eight::<0>(slot) == 0, is_free) {
        Some(slot) => {
            slots[slot] = record;
            Learning::Learned
        }
        None => Learning::Full,
    }
}

const OLD_RECORD: usize = 14;
const LONGEST_OLD_TABLE: usize = MOST_SLOTS * OLD_RECORD;
const WRITTEN: u64 = 64;

/// Each record of an older table, and a zero byte.
#[inline(never)]
pub unsafe extern "C" fn widen(
    old: *const u8,
    old_len: usize,
    out: *mut u8,
    out_len: usize,
) -> u64 {
    if old_len == 0 || old_len > LONGEST_OLD_TABLE || !old_len.is_multiple_of(OLD_RECORD) {
        return refusal::TABLE_LENGTH;
    }
    let (old, out) = (
        slice::from_raw_parts(old, old_len),
        slice::from_raw_parts_mut(out, out_len),
    );
    let length = old_len / OLD_RECORD * RECORD;
    let Some(wide) = out.get_mut(..length) else {
        return refusal::OUTPUT_LENGTH;
    };
    let (to, _) = wide.as_chunks_mut::<RECORD>();
    let (from, _) = old.as_chunks::<OLD_RECORD>();
    for (to, from) in to.iter_mut().zip(from) {
        // Two stores that overlap in a byte: the second is bytes 7 to 13 and the zero.
        let [front, back] = [0, 6].map(|at| {
            // SAFETY: the eight bytes are in the record.
            u64::from_le(from.as_ptr().add(at).cast::<u64>().read_unaligned())
        });
        to[..8].copy_from_slice(&front.to_le_bytes());
        to[7..].copy_from_slice(&(back >> 8).to_le_bytes());
    }
    WRITTEN | (length as u64) << 8
}
