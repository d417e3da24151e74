//! The labels that a message names.

use super::left::Left;
use super::nicknames::Nicknames;
use super::numbers::{self, Filter, Numbers, Visitor};
use super::payload::{Payload, FINE_BLOCKS, FINE_LIST, FINE_MAP, VLAN_BLOCKS, VLAN_MAP};
use super::vlans::Vlans;
use super::{learned, FEW};
use crate::baseline::record::{Bits, Slot, FINE};

#[inline(always)]
fn is_fine(label: u32) -> bool {
    label & !(FINE - 1) == FINE
}

/// Lists the slots from one on that have a nickname and whose record is learned and good, its label
/// named.
#[inline(always)]
pub fn list(
    nicknames: &impl Nicknames,
    payload: &Payload,
    slots: &[Slot],
    first: usize,
    left: &mut Left,
) {
    let vlans = Vlans::of(payload);
    let label = |slot: &Slot| Bits::of(slot).learned_label();
    if nicknames.are_over(FEW, slots, first) {
        let filter = Filter::of(&Fine(payload), vlans.words());
        let test = |slot: &Slot| filter.may_have_label(label(slot));
        nicknames.list(slots, first, left, test);
    } else {
        nicknames.list(slots, first, left, |_| true);
    }
    keep_named(payload, &vlans, slots, left);
}

/// Keeps the slots whose record is learned and good, and its label named.
#[inline(never)]
fn keep_named(payload: &Payload, vlans: &Vlans, slots: &[Slot], left: &mut Left) {
    if payload.has(&[VLAN_BLOCKS, VLAN_MAP]) {
        let mut fine = Left::new();
        fine.copy(left);
        keep_fine(payload, slots, &mut fine);
        left.keep(slots, |slot| learned(slot, |label| vlans.has(label)));
        for number in fine.slots() {
            left.add_if(*number, true);
        }
    } else {
        keep_fine(payload, slots, left);
    }
}

/// Keeps the slots whose record is learned and good, and its label a fine-grained one that is named.
fn keep_fine(payload: &Payload, slots: &[Slot], left: &mut Left) {
    let labels = Fine(payload);
    left.keep(slots, |slot| learned(slot, is_fine));
    if left.count() > MANY && payload.has(&[FINE_MAP]) && !labels.has_blocks() {
        let near = Filter::near(&labels);
        left.keep(slots, |slot| near.may_have(Bits::of(slot).label()));
    }
    numbers::keep(left, slots, &labels);
}

/// More records than these are worth another filter: long maps set many bits of one that has a bit for
/// each number.
const MANY: usize = 1024;

/// Fine-grained labels.
struct Fine<'a>(&'a Payload<'a>);

impl Numbers for Fine<'_> {
    #[inline(always)]
    fn visit(&self, visitor: &mut impl Visitor) {
        for (kind, value) in self.0.tlvs() {
            match kind {
                FINE_BLOCKS => {
                    for [start, end] in value.as_chunks().0.as_chunks().0 {
                        visitor.add_block(three(start), three(end));
                    }
                }
                FINE_LIST => {
                    for label in value.as_chunks().0 {
                        visitor.add(three(label));
                    }
                }
                FINE_MAP => {
                    if let Some((start, map)) = value.split_first_chunk() {
                        visitor.add_map(three(start), map);
                    }
                }
                _ => {}
            }
        }
    }

    fn has_blocks(&self) -> bool {
        self.0.has(&[FINE_BLOCKS])
    }

    #[inline(always)]
    fn number_of(&self, slot: &Slot) -> u64 {
        u64::from(Bits::of(slot).label() % FINE)
    }
}

/// Three bytes as a number.
#[inline(always)]
fn three(bytes: &[u8; 3]) -> u64 {
    let [a, b, c] = *bytes;
    u64::from(u32::from_be_bytes([0, a, b, c]))
}
