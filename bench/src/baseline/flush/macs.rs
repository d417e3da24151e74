//! The MACs that a message names.

use super::left::Left;
use super::numbers::{self, Filter, Numbers, Visitor};
use super::payload::{Payload, MAC_BLOCKS, MAC_LIST};
use super::FEW;
use crate::baseline::record::{Bits, Slot};

/// Keeps the slots whose MAC is meant; where none is named every one is.
#[inline(always)]
pub fn keep(payload: &Payload, slots: &[Slot], left: &mut Left) {
    if left.count() > 0 && (payload.has(&[MAC_LIST]) || names_in_blocks(payload)) {
        keep_named(payload, slots, left);
    }
}

/// Whether a block names a MAC: an end below its start empties it.
pub fn names_in_blocks(payload: &Payload) -> bool {
    let has_one = |value: &[u8]| {
        let blocks = value.as_chunks::<6>().0.as_chunks().0;
        blocks.iter().any(|[start, end]| start <= end)
    };
    let mut tlvs = payload.tlvs();
    payload.has(&[MAC_BLOCKS]) && tlvs.any(|(kind, value)| kind == MAC_BLOCKS && has_one(value))
}

#[inline(never)]
fn keep_named(payload: &Payload, slots: &[Slot], left: &mut Left) {
    let macs = Macs(payload);
    if left.count() > FEW {
        let filter = Filter::of(&macs, &[]);
        left.keep(slots, |slot| filter.may_have(Bits::of(slot).mac_low_bits()));
    }
    numbers::keep(left, slots, &macs);
}

struct Macs<'a>(&'a Payload<'a>);

impl Numbers for Macs<'_> {
    #[inline(always)]
    fn visit(&self, visitor: &mut impl Visitor) {
        for (kind, value) in self.0.tlvs() {
            match kind {
                MAC_LIST => {
                    for mac in value.as_chunks().0 {
                        visitor.add(six(mac));
                    }
                }
                MAC_BLOCKS => {
                    for [start, end] in value.as_chunks().0.as_chunks().0 {
                        visitor.add_block(six(start), six(end));
                    }
                }
                _ => {}
            }
        }
    }

    fn has_blocks(&self) -> bool {
        self.0.has(&[MAC_BLOCKS])
    }

    #[inline(always)]
    fn number_of(&self, slot: &Slot) -> u64 {
        Bits::of(slot).mac()
    }
}

/// Six bytes as a number.
#[inline(always)]
pub fn six(bytes: &[u8; 6]) -> u64 {
    let [a, b, c, d, e, f] = *bytes;
    u64::from(u32::from_be_bytes([a, b, c, d])) << 16 | u64::from(u16::from_be_bytes([e, f]))
}
