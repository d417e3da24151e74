//! Areas for the calls of the library.
//!
//! A lender copies the bytes of a call into areas of its own, so placed that an access outside them
//! shows. `Random` puts random guard bytes before and behind each area, at any alignment, and looks at
//! them after the call: it finds writes. `Pages` (`crate::pages`) puts each area against memory that
//! cannot be accessed: it finds reads too. An area of length 0 has a pointer, never null.

use std::hint::black_box;

use crate::random::Random;

/// A name and an area's bytes.
pub type Read<'a> = (&'static str, &'a [u8]);
pub type Write<'a> = (&'static str, &'a mut [u8]);

pub trait Lend {
    /// Makes a call on areas with these bytes and gives back its word. Then the bytes of `write` are
    /// those that the call left in its areas. Ends the run if the call touched what it may not.
    fn lend<const R: usize, const W: usize>(
        &mut self,
        read: [Read; R],
        write: [Write; W],
        call: impl FnOnce([&[u8]; R], [&mut [u8]; W]) -> u64,
    ) -> u64;
}

/// The least number of guard bytes on each side.
const GUARD: usize = 32;

/// An area between guard bytes.
struct Area {
    buffer: Vec<u8>,
    before: usize,
    length: usize,
    guard_seed: u64,
}

impl Area {
    fn new(random: &mut Random, bytes: &[u8]) -> Area {
        let before = random.length(GUARD, GUARD + 15);
        let length = bytes.len();
        let guard_seed = random.number();
        let mut buffer = Vec::with_capacity(before + length + GUARD);
        let mut guards = Random::new(guard_seed);
        buffer.extend(guards.bytes(before));
        buffer.extend_from_slice(bytes);
        buffer.extend(guards.bytes(GUARD));
        Area {
            buffer,
            before,
            length,
            guard_seed,
        }
    }

    fn lent(&mut self) -> &mut [u8] {
        &mut self.buffer[self.before..][..self.length]
    }

    /// The bytes of the area after the call. Fails if a guard byte has changed.
    fn bytes(&self, name: &str) -> &[u8] {
        // The compiler knows that a call changes nothing outside the slices it got; here it must not.
        let buffer: &[u8] = black_box(&self.buffer);
        let mut guards = Random::new(self.guard_seed);
        let (before, rest) = buffer.split_at(self.before);
        let (bytes, behind) = rest.split_at(self.length);
        assert!(
            before == guards.bytes(self.before),
            "the call wrote before the {name} of {} bytes",
            self.length
        );
        assert!(
            behind == guards.bytes(GUARD),
            "the call wrote behind the {name} of {} bytes",
            self.length
        );
        bytes
    }

    /// Fails if a guard byte or a byte of the area has changed.
    fn check_only_read(&self, name: &str, given: &[u8]) {
        assert!(
            self.bytes(name) == given,
            "the call changed the {name}, which it may only read"
        );
    }
}

impl Lend for Random {
    fn lend<const R: usize, const W: usize>(
        &mut self,
        read: [Read; R],
        write: [Write; W],
        call: impl FnOnce([&[u8]; R], [&mut [u8]; W]) -> u64,
    ) -> u64 {
        let mut read_areas = read.map(|(_, bytes)| Area::new(self, bytes));
        let mut areas = write.each_ref().map(|(_, bytes)| Area::new(self, bytes));
        let word = call(
            read_areas.each_mut().map(|area| &*area.lent()),
            areas.each_mut().map(Area::lent),
        );
        for ((name, bytes), area) in read.into_iter().zip(&read_areas) {
            area.check_only_read(name, bytes);
        }
        for ((name, bytes), area) in write.into_iter().zip(&areas) {
            bytes.copy_from_slice(area.bytes(name));
        }
        word
    }
}

#[cfg(test)]
mod tests {
    use super::*;

    #[test]
    fn an_untouched_area_gives_its_bytes_back() {
        let mut random = Random::new(1);
        for length in [0, 1, 14, 300] {
            let bytes = random.bytes(length);
            let mut area = Area::new(&mut random, &bytes);
            assert_eq!(area.lent(), bytes);
            assert_eq!(area.bytes("area"), bytes);
            area.check_only_read("area", &bytes);
        }
    }

    #[test]
    fn what_a_call_writes_is_given_back() {
        let (mut first, mut second) = ([1, 2, 3], [4; 20]);
        let areas = [("first", &mut first[..]), ("second", &mut second[..])];
        let word = Random::new(1).lend([("read", &[5, 6])], areas, |[read], [first, second]| {
            assert_eq!(read, [5, 6]);
            first[1] = 7;
            second.fill(8);
            9
        });
        assert_eq!((word, first, second), (9, [1, 7, 3], [8; 20]));
    }

    #[test]
    #[should_panic(expected = "wrote before the area")]
    fn a_byte_changed_before_an_area_is_found() {
        let mut area = Area::new(&mut Random::new(2), &[1, 2, 3]);
        area.buffer[area.before - 1] ^= 1;
        area.bytes("area");
    }

    #[test]
    #[should_panic(expected = "wrote behind the area")]
    fn a_byte_changed_behind_an_area_is_found() {
        let mut area = Area::new(&mut Random::new(3), &[]);
        area.buffer[area.before] ^= 0x80;
        area.bytes("area");
    }

    #[test]
    #[should_panic(expected = "which it may only read")]
    fn a_byte_changed_in_an_area_that_is_only_read_is_found() {
        let mut area = Area::new(&mut Random::new(4), &[1, 2, 3]);
        area.lent()[2] ^= 1;
        area.check_only_read("area", &[1, 2, 3]);
    }
}
