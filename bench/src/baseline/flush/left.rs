//! The list of the slots that are left.

use std::mem::MaybeUninit;

use crate::baseline::record::{Slot, MOST_SLOTS, RECORD};

type Numbers = [MaybeUninit<u16>; MOST_SLOTS];

/// Slot numbers, as many as a table has at most. Whether one stays is added to the count, not branched
/// on: no mix of records makes it hard to predict. What stays goes into another area, since a store to
/// the one that is read holds up the loads after it.
pub struct Left {
    areas: [Numbers; 2],
    /// The area of the list.
    at: usize,
    count: usize,
}

impl Left {
    #[inline(always)]
    pub fn new() -> Left {
        Left {
            areas: [[MaybeUninit::uninit(); MOST_SLOTS]; 2],
            at: 0,
            count: 0,
        }
    }

    pub fn count(&self) -> usize {
        self.count
    }

    pub fn slots(&self) -> &[u16] {
        // SAFETY: so many are written.
        unsafe { self.areas[self.at][..self.count].assume_init_ref() }
    }

    /// Lists the slots from one on that pass the test.
    #[inline(always)]
    pub fn list(&mut self, slots: &[Slot], from: usize, test: impl Fn(&Slot) -> bool) {
        self.list_of_few(slots, from, |_| true, test);
    }

    /// Lists the slots from one on that pass two tests, of which few pass the first.
    #[inline(always)]
    pub fn list_of_few(
        &mut self,
        slots: &[Slot],
        from: usize,
        first: impl Fn(&Slot) -> bool,
        second: impl Fn(&Slot) -> bool,
    ) {
        let list = &mut self.areas[self.at];
        let mut count = 0;
        for (number, slot) in slots.iter().enumerate().skip(from) {
            if first(slot) {
                // SAFETY: no more are listed than there are slots.
                unsafe { list.get_unchecked_mut(count).write(number as u16) };
                count += usize::from(second(slot));
            }
        }
        self.count = count;
    }

    /// Keeps those that pass the test.
    #[inline(always)]
    pub fn keep(&mut self, slots: &[Slot], test: impl Fn(&Slot) -> bool) {
        let [low, high] = &mut self.areas;
        let (from, to) = if self.at == 0 {
            (low, high)
        } else {
            (high, low)
        };
        let mut count = 0;
        for number in &from[..self.count] {
            // SAFETY: it is written, and the number of a slot; no more are kept.
            unsafe {
                *to.get_unchecked_mut(count) = *number;
                let slot = slots.get_unchecked(usize::from(number.assume_init()));
                count += usize::from(test(slot));
            }
        }
        self.at = 1 - self.at;
        self.count = count;
    }

    /// Becomes the list of another.
    pub fn copy(&mut self, other: &Left) {
        self.areas[self.at][..other.count].copy_from_slice(&other.areas[other.at][..other.count]);
        self.count = other.count;
    }

    /// Empties the list.
    pub fn forget(&mut self) {
        self.count = 0;
    }

    /// Adds a slot that the list did not have, if it passed.
    #[inline(always)]
    pub fn add_if(&mut self, number: u16, passed: bool) {
        self.areas[self.at][self.count % MOST_SLOTS].write(number);
        self.count += usize::from(passed);
    }

    /// Clears the slots, and counts them.
    pub fn clear(&self, slots: &mut [Slot]) -> u64 {
        for number in self.slots() {
            // SAFETY: it is the number of a slot.
            unsafe { *slots.get_unchecked_mut(usize::from(*number)) = [0; RECORD] };
        }
        self.count as u64
    }
}
