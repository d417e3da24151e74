//! The VLANs that a message means.

use super::bits::add_map;
use super::payload::{Payload, VLAN_BLOCKS, VLAN_MAP};

/// The words of 4,096 VLANs.
pub const VLAN_WORDS: usize = 64;
/// And those that the longest map from the highest reaches after them.
const WORDS: usize = VLAN_WORDS + 33;

/// A set of good VLANs.
pub struct Vlans([u64; WORDS]);

impl Vlans {
    pub fn of(payload: &Payload) -> Vlans {
        let mut vlans = Vlans([0; WORDS]);
        vlans.add_blocks(payload.blocks);
        if payload.has(&[VLAN_BLOCKS, VLAN_MAP]) {
            for (kind, value) in payload.tlvs() {
                match (kind, value) {
                    (VLAN_BLOCKS, _) => vlans.add_blocks(value),
                    (VLAN_MAP, [high, low, map @ ..]) => {
                        vlans.add_map(u16::from_be_bytes([*high, *low]), map);
                    }
                    _ => {}
                }
            }
        }
        // VLAN 0, FFF and what is no VLAN
        vlans.0[0] &= !0 >> 1;
        vlans.0[VLAN_WORDS - 1] &= !1;
        vlans.0[VLAN_WORDS] = 0;
        vlans
    }

    /// Blocks of start and end. Start 0 reads as 1, end FFF as FFE.
    fn add_blocks(&mut self, blocks: &[u8]) {
        for block in blocks.as_chunks().0 {
            let block = u32::from_be_bytes(*block);
            let (start, end) = (block >> 16 & 0xFFF, block & 0xFFF);
            if start <= end {
                self.add_range(start, end);
            }
        }
    }

    /// VLAN 0 and FFF are taken out at the end.
    #[inline(always)]
    fn add_range(&mut self, start: u32, end: u32) {
        let (first, last) = ((start >> 6) as usize & 63, (end >> 6) as usize & 63);
        let (from, to) = (!0 >> (start & 63), !0 << (63 - (end & 63)));
        if first == last {
            self.0[first] |= from & to;
        } else {
            self.0[first] |= from;
            self.0[first + 1..last].fill(!0);
            self.0[last] |= to;
        }
    }

    /// A bit map whose highest bit is its start.
    fn add_map(&mut self, start: u16, map: &[u8]) {
        let start = u64::from(start & 0xFFF);
        add_map(start, map, |word, bits| self.0[word] |= bits);
    }

    /// The words of all VLANs.
    pub fn words(&self) -> &[u64] {
        &self.0[..VLAN_WORDS]
    }

    /// Whether a label with its kind is in the set.
    #[inline(always)]
    pub fn has(&self, label: u32) -> bool {
        let word = self.0[((label >> 6) as usize).min(VLAN_WORDS)];
        word >> (!label & 63) & 1 != 0
    }
}
