//! A port's map: judged and searched in one pass.

use super::refusal;

/// Up to so many pairs are compared one with another.
const SHORT: usize = 8;
/// The pairs of a middling map.
const MIDDLING: usize = 64;
/// The hashes that may be met again, and the labels that are then compared; more are rare.
const AGAIN: usize = 128;
const CANDIDATES: usize = 512;
/// The pairs that a good map can have.
const MOST: usize = 0xFFE;

/// The pair with the number that is looked for, if there is one.
pub type Found = Option<(u16, u32)>;

type Pair = [u8; 6];

/// What a call looks for.
#[derive(Clone, Copy)]
pub enum Wanted {
    Vlan(u16),
    Label(u32),
    Nothing,
}

#[inline(always)]
fn vlan(pair: &Pair) -> u16 {
    u16::from_be_bytes([pair[0], pair[1]])
}

#[inline(always)]
fn label(pair: &Pair) -> u32 {
    u32::from_be_bytes([pair[2], pair[3], pair[4], pair[5]])
}

/// A number outside its range.
#[inline(always)]
fn is_bad(pair: &Pair) -> bool {
    vlan(pair).wrapping_sub(1) >= 0xFFE || label(pair) > 0xFF_FFFF
}

/// Judges a map and finds a pair of it.
#[inline(always)]
pub fn judge(map: &[u8], wanted: Wanted) -> Result<Found, u64> {
    let (pairs, rest) = map.as_chunks::<6>();
    if !rest.is_empty() || pairs.len() > MOST {
        return Err(refusal::MAP);
    }
    let good = match pairs.len() {
        0..=SHORT => short_good(pairs),
        ..=MIDDLING => middling_good(pairs),
        _ => long_good(pairs),
    };
    if !good {
        return Err(refusal::MAP);
    }
    // Compared as the bytes lie.
    let found = match wanted {
        Wanted::Vlan(wanted) => {
            let bytes = wanted.to_be_bytes();
            pairs.iter().find(|pair| pair[..2] == bytes)
        }
        Wanted::Label(wanted) => {
            let bytes = wanted.to_be_bytes();
            pairs.iter().find(|pair| pair[2..] == bytes)
        }
        Wanted::Nothing => None,
    };
    Ok(found.map(|pair| (vlan(pair), label(pair))))
}

#[inline(always)]
fn short_good(pairs: &[Pair]) -> bool {
    for (at, pair) in pairs.iter().enumerate() {
        if is_bad(pair) {
            return false;
        }
        for before in &pairs[..at] {
            if vlan(before) == vlan(pair) || label(before) == label(pair) {
                return false;
            }
        }
    }
    true
}

/// The places of a hash of a label among so many words of 64 bits.
#[inline(always)]
fn hash<const WORDS: usize>(label: u32) -> u32 {
    label.wrapping_mul(0x9E37_79B1) >> (32 - 6 - WORDS.trailing_zeros())
}

/// Sets a bit, and says whether it was set.
#[inline(always)]
fn mark(words: &mut [u64], bit: u32) -> bool {
    let at = (bit >> 6) as usize & (words.len() - 1);
    let was = words[at] >> (bit & 63) & 1 != 0;
    words[at] |= 1 << (bit & 63);
    was
}

#[inline(never)]
fn middling_good(pairs: &[Pair]) -> bool {
    all_good::<64>(pairs)
}

#[inline(never)]
fn long_good(pairs: &[Pair]) -> bool {
    all_good::<4096>(pairs)
}

/// VLANs by a bit map, and hashes of labels by another. What is met again goes into a short list, without a branch.
#[inline(always)]
fn all_good<const WORDS: usize>(pairs: &[Pair]) -> bool {
    let (mut vlans, mut hashes) = ([0; 64], [0; WORDS]);
    let (mut again, mut count, mut bad) = ([0; AGAIN], 0, false);
    for pair in pairs {
        bad |= is_bad(pair) | mark(&mut vlans, u32::from(vlan(pair)));
        let hash = hash::<WORDS>(label(pair));
        again[count & (AGAIN - 1)] = hash;
        count += usize::from(mark(&mut hashes, hash));
    }
    if bad {
        return false;
    }
    match count {
        0 => true,
        1..AGAIN => again_differ::<WORDS>(pairs, &again[..count]),
        _ => sorted_differ(pairs),
    }
}

/// The labels with a hash that was met again, and some others, are compared.
#[inline(always)]
fn again_differ<const WORDS: usize>(pairs: &[Pair], again: &[u32]) -> bool {
    let mut met = [0; 64];
    for hash in again {
        mark(&mut met, *hash);
    }
    let (mut labels, mut count) = ([0; CANDIDATES], 0);
    for pair in pairs {
        let hash = hash::<WORDS>(label(pair));
        labels[count & (CANDIDATES - 1)] = label(pair);
        count += (met[(hash >> 6) as usize & 63] >> (hash & 63) & 1) as usize;
    }
    if count >= CANDIDATES {
        return sorted_differ(pairs);
    }
    let labels = &mut labels[..count];
    labels.sort_unstable();
    labels.windows(2).all(|two| two[0] != two[1])
}

#[cold]
#[inline(never)]
fn sorted_differ(pairs: &[Pair]) -> bool {
    let mut labels = [0; MOST];
    let labels = &mut labels[..pairs.len()];
    for (to, pair) in labels.iter_mut().zip(pairs) {
        *to = label(pair);
    }
    labels.sort_unstable();
    labels.windows(2).all(|two| two[0] != two[1])
}

#[cfg(test)]
mod tests {
    use super::*;
    use crate::random::Random;

    fn bytes(pairs: &[(u16, u32)]) -> Vec<u8> {
        let pair = |(vlan, label): &(u16, u32)| {
            [&vlan.to_be_bytes()[..], &label.to_be_bytes()[..]].concat()
        };
        pairs.iter().flat_map(pair).collect()
    }

    #[test]
    fn a_map_is_judged_as_by_comparing_all_pairs() {
        let mut random = Random::new(2601);
        for case in 0..4_000 {
            let most = [12, 70, 12, 400][case % 4];
            let count = random.between(0, most) as usize;
            let step = random.pick(&[1, 2, 4096, 0x2_0001]);
            let mut pairs: Vec<(u16, u32)> = (0..count)
                .map(|at| (at as u16 + 1, at as u32 * step & 0xFF_FFFF))
                .collect();
            if count > 1 {
                let (one, other) = (
                    random.between(0, count as u64 - 1) as usize,
                    random.between(0, count as u64 - 1) as usize,
                );
                match random.between(0, 6) {
                    0 => pairs[one].0 = pairs[other].0,
                    1 => pairs[one].1 = pairs[other].1,
                    2 => pairs[one].0 = random.pick(&[0, 0xFFF, 0x1001]),
                    3 => pairs[one].1 = 0x100_0000,
                    _ => {}
                }
            }
            let in_range =
                |(vlan, label): &(u16, u32)| (0x001..=0xFFE).contains(vlan) && *label <= 0xFF_FFFF;
            let good = pairs.iter().all(in_range)
                && pairs.iter().enumerate().all(|(at, one)| {
                    pairs[..at]
                        .iter()
                        .all(|other| one.0 != other.0 && one.1 != other.1)
                });
            let bytes = bytes(&pairs);
            assert_eq!(judge(&bytes, Wanted::Nothing).is_ok(), good, "{pairs:?}");
            if let Some(last) = pairs.last().filter(|_| good) {
                assert_eq!(judge(&bytes, Wanted::Vlan(last.0)), Ok(Some(*last)));
                assert_eq!(judge(&bytes, Wanted::Label(last.1)), Ok(Some(*last)));
                assert_eq!(judge(&bytes[1..], Wanted::Nothing), Err(refusal::MAP));
            }
        }
    }
}
