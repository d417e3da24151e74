//! A small generator of random numbers with a seed (splitmix64).

pub struct Random {
    state: u64,
}

impl Random {
    pub fn new(seed: u64) -> Random {
        Random { state: seed }
    }

    /// A generator of its own for each case, so that a case can be run alone.
    pub fn for_case(seed: u64, case: u64) -> Random {
        let mut start = Random::new(seed);
        let first = start.number();
        Random::new(first ^ Random::new(case).number())
    }

    /// Any 64-bit number.
    pub fn number(&mut self) -> u64 {
        self.state = self.state.wrapping_add(0x9E37_79B9_7F4A_7C15);
        let mut mixed = self.state;
        mixed = (mixed ^ (mixed >> 30)).wrapping_mul(0xBF58_476D_1CE4_E5B9);
        mixed = (mixed ^ (mixed >> 27)).wrapping_mul(0x94D0_49BB_1331_11EB);
        mixed ^ (mixed >> 31)
    }

    /// A number below `limit`, which is at least 1.
    pub fn below(&mut self, limit: u64) -> u64 {
        ((u128::from(self.number()) * u128::from(limit)) >> 64) as u64
    }

    /// A number from `first` to `last`.
    pub fn between(&mut self, first: u64, last: u64) -> u64 {
        first + self.below(last - first + 1)
    }

    /// A length from `first` to `last`.
    pub fn length(&mut self, first: usize, last: usize) -> usize {
        self.between(first as u64, last as u64) as usize
    }

    pub fn one_in(&mut self, count: u64) -> bool {
        self.below(count) == 0
    }

    /// One of the values, of which there is at least one.
    pub fn pick<T: Copy>(&mut self, values: &[T]) -> T {
        values[self.below(values.len() as u64) as usize]
    }

    pub fn byte(&mut self) -> u8 {
        self.number() as u8
    }

    pub fn fill(&mut self, bytes: &mut [u8]) {
        for part in bytes.chunks_mut(8) {
            let number = self.number().to_le_bytes();
            part.copy_from_slice(&number[..part.len()]);
        }
    }

    pub fn bytes(&mut self, count: usize) -> Vec<u8> {
        let mut bytes = vec![0; count];
        self.fill(&mut bytes);
        bytes
    }
}

#[cfg(test)]
mod tests {
    use super::*;

    #[test]
    fn the_same_seed_gives_the_same_numbers_and_another_gives_others() {
        let numbers = |mut random: Random| [random.number(), random.number(), random.number()];
        assert_eq!(numbers(Random::new(7)), numbers(Random::new(7)));
        assert_ne!(numbers(Random::new(7)), numbers(Random::new(8)));
        assert_eq!(
            numbers(Random::for_case(7, 3)),
            numbers(Random::for_case(7, 3))
        );
        assert_ne!(
            numbers(Random::for_case(7, 3)),
            numbers(Random::for_case(7, 4))
        );
    }

    #[test]
    fn every_number_of_a_range_is_reached() {
        let mut random = Random::new(1);
        let mut reached = [false; 10];
        for _ in 0..1000 {
            reached[random.between(3, 12) as usize - 3] = true;
        }
        assert_eq!(reached, [true; 10]);
    }
}
