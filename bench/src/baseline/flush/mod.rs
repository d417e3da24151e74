//! Address Flush: the payload is judged whole before any record is looked at. Then the slots with a
//! nickname meant are listed, and the list is narrowed by label and by MAC.

mod bits;
mod labels;
mod left;
mod macs;
mod nicknames;
mod numbers;
mod payload;
mod portion;
mod sorted;
mod vlans;
mod why;

use std::slice;

use super::record::{label_good, slots_mut, Bits, Slot};
use super::refusal;
use left::Left;
use nicknames::{Nicknames, One, Several};
use payload::{Payload, ALL_LABELS, FINE_BLOCKS, FINE_LIST, FINE_MAP};
pub use portion::flush_portion;
use vlans::Vlans;
pub use why::why;

const FLUSHED: u64 = 67;
/// For so many records nothing is prepared.
const FEW: usize = 16;

#[inline(never)]
pub unsafe extern "C" fn flush(
    ingress: u32,
    payload: *const u8,
    payload_len: usize,
    table: *mut u8,
    table_len: usize,
) -> u64 {
    let Some(slots) = slots_mut(table, table_len) else {
        return refusal::TABLE_LENGTH;
    };
    let payload = slice::from_raw_parts(payload, payload_len);
    clear(ingress, payload, slots).unwrap_or_else(|refusal| refusal)
}

/// The flush of a box that knows VLANs and all labels alone.
#[inline(never)]
pub unsafe extern "C" fn flush_vlan_only(
    ingress: u32,
    payload: *const u8,
    payload_len: usize,
    table: *mut u8,
    table_len: usize,
) -> u64 {
    let Some(slots) = slots_mut(table, table_len) else {
        return refusal::TABLE_LENGTH;
    };
    let payload = slice::from_raw_parts(payload, payload_len);
    match Payload::judged_small(payload) {
        Some(payload) => clear_judged(ingress, &payload, slots),
        None => refusal::PAYLOAD,
    }
}

/// Clears what the payload means, and gives the answer.
pub fn clear(ingress: u32, payload: &[u8], slots: &mut [Slot]) -> Result<u64, u64> {
    let payload = Payload::judged(payload).ok_or(refusal::PAYLOAD)?;
    Ok(clear_judged(ingress, &payload, slots))
}

#[inline(always)]
fn clear_judged(ingress: u32, payload: &Payload, slots: &mut [Slot]) -> u64 {
    let cleared = if payload.names_labels() {
        match payload.nicknames {
            [] => clear_one(ingress, payload, slots),
            [one] => clear_one(u32::from(u16::from_be_bytes(*one)), payload, slots),
            several => clear_of(&Several::new(several), payload, slots),
        }
    } else {
        0
    };
    FLUSHED | cleared << 8
}

/// Clears for one nickname, which may be none that a record holds.
fn clear_one(nickname: u32, payload: &Payload, slots: &mut [Slot]) -> u64 {
    One::new(nickname).map_or(0, |one| clear_of(&one, payload, slots))
}

/// Clears the learned records with such a nickname, a label and a MAC meant, and counts them.
#[inline(always)]
fn clear_of(nicknames: &impl Nicknames, payload: &Payload, slots: &mut [Slot]) -> u64 {
    let Some(first) = nicknames.first(slots) else {
        return 0;
    };
    let mut left = Left::new();
    if payload.has(&[ALL_LABELS]) {
        let test = |slot: &Slot| learned(slot, label_good);
        nicknames.list(slots, first, &mut left, test);
    } else if payload.has(&[FINE_BLOCKS, FINE_LIST, FINE_MAP]) {
        labels::list(nicknames, payload, slots, first, &mut left);
    } else {
        let vlans = Vlans::of(payload);
        let test = |slot: &Slot| learned(slot, |label| vlans.has(label));
        nicknames.list(slots, first, &mut left, test);
    }
    macs::keep(payload, slots, &mut left);
    left.clear(slots)
}

/// Whether a slot is learned, good but for its nickname, and has such a label.
#[inline(always)]
fn learned(slot: &Slot, has: impl Fn(u32) -> bool) -> bool {
    let bits = Bits::of(slot);
    has(bits.learned_label()) & !bits.is_group() & bits.last_good()
}
