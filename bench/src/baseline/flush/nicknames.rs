//! The nicknames that a message is about.

use super::left::Left;
use crate::baseline::record::{nickname_bits, nickname_good, Slot, NICKNAME_SHIFT};
use crate::baseline::table::lowest;

pub trait Nicknames {
    /// Whether the bytes of a slot have such a nickname, whatever its state.
    fn has(&self, slot: &Slot) -> bool;

    /// The lowest slot that has.
    #[inline(always)]
    fn first(&self, slots: &[Slot]) -> Option<usize> {
        lowest(slots, |slot| self.has(slot), |_| true)
    }

    /// Whether more slots than so many have, of those from one on.
    #[inline(always)]
    fn are_over(&self, most: usize, slots: &[Slot], from: usize) -> bool {
        let mut having = slots[from..].iter().filter(|slot| self.has(slot));
        having.nth(most).is_some()
    }

    /// Lists the slots from one on that have, and pass a test.
    fn list(&self, slots: &[Slot], from: usize, left: &mut Left, test: impl Fn(&Slot) -> bool);
}

/// The bits of a nickname as they lie in memory.
const MASK: u32 = (0xFFFF_u32 << NICKNAME_SHIFT).to_be();

/// A good nickname, as it lies in memory.
pub struct One(u32);

impl One {
    pub fn new(nickname: u32) -> Option<One> {
        let good = nickname_good(u64::from(nickname));
        good.then_some(One((nickname << NICKNAME_SHIFT).to_be()))
    }
}

impl Nicknames for One {
    #[inline(always)]
    fn has(&self, slot: &Slot) -> bool {
        nickname_bits(slot) & MASK == self.0
    }

    /// Few are expected to have it.
    #[inline(always)]
    fn list(&self, slots: &[Slot], from: usize, left: &mut Left, test: impl Fn(&Slot) -> bool) {
        left.list_of_few(slots, from, |slot| self.has(slot), test);
    }
}

/// The good ones of several nicknames.
pub struct Several([u64; 1024]);

impl Several {
    pub fn new(nicknames: &[[u8; 2]]) -> Several {
        let mut set = Several([0; 1024]);
        for nickname in nicknames {
            let nickname = u16::from_be_bytes(*nickname);
            set.0[usize::from(nickname >> 6)] |= 1 << (nickname & 63);
        }
        // 0, and FFC0 to FFFF
        set.0[0] &= !1;
        set.0[1023] = 0;
        set
    }
}

impl Nicknames for Several {
    #[inline(always)]
    fn has(&self, slot: &Slot) -> bool {
        let nickname = (u32::from_be(nickname_bits(slot)) >> NICKNAME_SHIFT) as u16;
        self.0[usize::from(nickname >> 6)] >> (nickname & 63) & 1 != 0
    }

    #[inline(always)]
    fn list(&self, slots: &[Slot], from: usize, left: &mut Left, test: impl Fn(&Slot) -> bool) {
        left.list(slots, from, |slot| self.has(slot));
        left.keep(slots, test);
    }
}
