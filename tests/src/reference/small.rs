//! The VLAN-only box: document 02, 2026-07.

use super::answer::{word, Flushed};
use super::flush::read_payload_of;
use super::record::{read, Record, RECORD};
use super::table::check_length;

/// "Our smaller model implements types 1, 2 and 6 and skips all others as unknown; all MACs are meant."
fn implements(kind: u8) -> bool {
    matches!(kind, 1 | 2 | 6)
}

/// The flush call of the small model: 2, then 15.
pub fn flush_vlan_only(ingress: u32, payload: &[u8], table: &mut [u8]) -> u64 {
    let outcome = check_length(table).and_then(|()| {
        let meant = read_payload_of(implements, ingress, payload)?;
        let mut cleared = 0;
        for slot in table.chunks_exact_mut(RECORD) {
            if let Record::Learned(entry) = read(slot) {
                if meant.has(&entry) {
                    slot.fill(0);
                    cleared += 1;
                }
            }
        }
        Ok(Flushed(cleared))
    });
    word(outcome)
}
