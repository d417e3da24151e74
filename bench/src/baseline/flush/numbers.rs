//! Fine-grained labels and MACs as numbers: which records have one that a message names. The records are
//! sorted, not the message; before that a filter drops those that cannot be meant.

use super::bits::Bits;
use super::left::Left;
use super::sorted::Areas;
use crate::baseline::record::Slot;

/// The numbers that a message names.
pub trait Numbers {
    fn visit(&self, visitor: &mut impl Visitor);

    /// Whether blocks are named.
    fn has_blocks(&self) -> bool;

    fn number_of(&self, slot: &Slot) -> u64;
}

/// Takes the numbers one after the other.
pub trait Visitor {
    fn add(&mut self, number: u64);

    /// From the first to the last; none if the last is below it.
    fn add_block(&mut self, first: u64, last: u64);

    /// A bit map whose highest bit is its start.
    fn add_map(&mut self, start: u64, map: &[u8]);
}

/// Numbers that share a bit where blocks are named, by their width.
pub const BLOCK_SHIFT: u32 = 8;
/// A block that covers more bits than these fills the filter: it would take long to mark.
const LONGEST_MARKED: u64 = 64;

/// A number whose bit is not set is not named. The bits are counted round.
pub struct Filter {
    bits: Bits,
    /// Whether numbers share a bit; else each has one of its own.
    blocks: bool,
    full: bool,
}

impl Filter {
    /// The words of VLANs lie after those of the numbers.
    #[inline(always)]
    pub fn of(numbers: &impl Numbers, vlans: &[u64]) -> Filter {
        let mut filter = Filter {
            bits: Bits::new(),
            blocks: numbers.has_blocks(),
            full: false,
        };
        filter.bits.put_after(vlans);
        numbers.visit(&mut filter);
        filter
    }

    /// A filter in which numbers share a bit, whatever is named.
    pub fn near(numbers: &impl Numbers) -> Filter {
        let mut filter = Filter {
            bits: Bits::new(),
            blocks: true,
            full: false,
        };
        numbers.visit(&mut filter);
        filter
    }

    /// The index of a number's bit.
    #[inline(always)]
    fn index(&self, number: u64) -> u64 {
        if self.blocks {
            number >> BLOCK_SHIFT
        } else {
            number
        }
    }

    /// Whether a number with these low bits may be named.
    #[inline(always)]
    pub fn may_have(&self, low_bits: u32) -> bool {
        self.bits.has(self.index(u64::from(low_bits)))
    }

    /// Whether a label with its kind may be named.
    #[inline(always)]
    pub fn may_have_label(&self, label: u32) -> bool {
        let fine = Bits::round(self.index(u64::from(label)));
        let vlan = Bits::COUNT + u64::from(label);
        self.bits
            .has_index(if label < 0x1000 { vlan } else { fine })
    }
}

impl Visitor for Filter {
    #[inline(always)]
    fn add(&mut self, number: u64) {
        self.bits.add(self.index(number));
    }

    #[inline(always)]
    fn add_block(&mut self, first: u64, last: u64) {
        if self.full || first > last {
            return;
        }
        let (first, last) = (self.index(first), self.index(last));
        if last - first < LONGEST_MARKED {
            for index in first..=last {
                self.bits.add(index);
            }
        } else {
            self.bits.fill();
            self.full = true;
        }
    }

    #[inline(always)]
    fn add_map(&mut self, start: u64, map: &[u8]) {
        if self.blocks {
            self.add_block(start, start + 8 * map.len() as u64);
        } else {
            self.bits.add_map(start, map);
        }
    }
}

/// Keeps the slots whose number is named.
#[inline(always)]
pub fn keep(left: &mut Left, slots: &[Slot], numbers: &impl Numbers) {
    if left.count() > 0 {
        let mut areas = Areas::new();
        let mut sorted = areas.sort(left, slots, |slot| numbers.number_of(slot));
        numbers.visit(&mut sorted);
        sorted.list_named(left);
    }
}
