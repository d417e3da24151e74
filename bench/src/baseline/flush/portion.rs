//! A portion: the whole flush's clearing on a part of the slots. For few of them nothing is prepared.

use std::slice;

use super::super::record::slots_mut;
use super::super::refusal;
use super::clear;

const PORTION_DONE: u64 = 64;

#[inline(never)]
pub unsafe extern "C" fn flush_portion(
    ingress: u32,
    payload: *const u8,
    payload_len: usize,
    slot: u64,
    k: u64,
    table: *mut u8,
    table_len: usize,
) -> u64 {
    let Some(slots) = slots_mut(table, table_len) else {
        return refusal::TABLE_LENGTH;
    };
    let left = (slots.len() as u64).saturating_sub(slot);
    if k == 0 || left == 0 {
        return refusal::PORTION;
    }
    let payload = slice::from_raw_parts(payload, payload_len);
    let examined = k.min(left);
    let part = &mut slots[slot as usize..][..examined as usize];
    match clear(ingress, payload, part) {
        Ok(flushed) => PORTION_DONE | flushed >> 8 << 8 | (slot + examined) << 24 | examined << 40,
        Err(refusal) => refusal,
    }
}
