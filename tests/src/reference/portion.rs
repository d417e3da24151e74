//! Flush in portions: document 02, 2026-05.

use super::answer::{word, Pack};
use super::flush::read_payload;
use super::record::{read, Record, RECORD};
use super::refusal::Refusal;
use super::table::check_length;

/// "returns the next slot, with the number examined"; "clears and counts".
struct Portioned {
    cleared: usize,
    next: usize,
    examined: usize,
}

impl Pack for Portioned {
    fn pack(&self) -> u64 {
        64 | (self.cleared as u64) << 8 | (self.next as u64) << 24 | (self.examined as u64) << 40
    }
}

fn portion(
    ingress: u32,
    payload: &[u8],
    slot: u64,
    k: u64,
    table: &mut [u8],
) -> Result<Portioned, Refusal> {
    check_length(table)?;
    // "Refusals: 24 k is 0 or the slot number is n or more (after 2)"
    let slots = table.len() / RECORD;
    let first = match usize::try_from(slot) {
        Ok(first) if first < slots && k != 0 => first,
        _ => return Err(Refusal::Portion),
    };
    // "the payload is read whole each time, so 15 comes before any clearing"
    let meant = read_payload(ingress, payload)?;
    // "examines at most k slots per call [..], which is the smaller of k and the slots left"
    let left = slots - first;
    let examined = usize::try_from(k).map_or(left, |k| k.min(left));
    let mut cleared = 0;
    for slot in table.chunks_exact_mut(RECORD).skip(first).take(examined) {
        // "Of these it clears and counts those that the whole flush would clear in the table given;
        // no other byte changes."
        if let Record::Learned(entry) = read(slot) {
            if meant.has(&entry) {
                slot.fill(0);
                cleared += 1;
            }
        }
    }
    Ok(Portioned {
        cleared,
        next: first + examined,
        examined,
    })
}

/// The portion call: 2, 24, 15.
pub fn flush_portion(ingress: u32, payload: &[u8], slot: u64, k: u64, table: &mut [u8]) -> u64 {
    word(portion(ingress, payload, slot, k, table))
}
