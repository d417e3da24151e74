//! Sets of bits. A word's highest bit has its lowest index, as in the bit maps of a message.

use super::vlans::VLAN_WORDS;

const WORDS: usize = 1024;

/// 65,536 bits, counted round, and after them one for each VLAN.
pub struct Bits([u64; WORDS + VLAN_WORDS]);

impl Bits {
    pub const COUNT: u64 = 64 * WORDS as u64;

    #[inline(always)]
    pub fn new() -> Bits {
        Bits([0; WORDS + VLAN_WORDS])
    }

    pub fn put_after(&mut self, words: &[u64]) {
        self.0[WORDS..][..words.len()].copy_from_slice(words);
    }

    pub fn fill(&mut self) {
        self.0[..WORDS].fill(!0);
    }

    pub fn round(index: u64) -> u64 {
        index % Bits::COUNT
    }

    #[inline(always)]
    pub fn add(&mut self, index: u64) {
        self.0[(index >> 6) as usize % WORDS] |= 1 << (!index & 63);
    }

    #[inline(always)]
    pub fn has(&self, index: u64) -> bool {
        self.has_index(Bits::round(index))
    }

    /// Whether the bit of an index is set, which may be that of a VLAN.
    #[inline(always)]
    pub fn has_index(&self, index: u64) -> bool {
        let word = self.0[(index >> 6) as usize];
        word >> (!index & 63) & 1 != 0
    }

    pub fn add_map(&mut self, start: u64, map: &[u8]) {
        add_map(start, map, |word, bits| self.0[word % WORDS] |= bits);
    }
}

/// Adds a bit map word by word. Its highest bit is its start.
#[inline(always)]
pub fn add_map(start: u64, map: &[u8], mut add: impl FnMut(usize, u64)) {
    let (word, shift) = ((start >> 6) as usize, start & 63);
    let (eights, rest) = map.as_chunks::<8>();
    let mut put = |offset: usize, bits: u64| {
        add(word + offset, bits >> shift);
        add(word + offset + 1, bits << 1 << (63 - shift));
    };
    for (offset, bytes) in eights.iter().enumerate() {
        put(offset, u64::from_be_bytes(*bytes));
    }
    if !rest.is_empty() {
        let bytes = rest.iter().rev();
        let bits = bytes.fold(0, |bits, byte| bits >> 8 | u64::from(*byte) << 56);
        put(eights.len(), bits);
    }
}
