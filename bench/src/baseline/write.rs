//! Writing a flush: judged whole, then copied list by list.

use std::slice;

const LISTS: u64 = 23;
const OUTPUT_LENGTH: u64 = 16;
const MOST: usize = 255;

/// The number of K bytes, by one load.
#[inline(always)]
fn number<const K: usize>(bytes: &[u8]) -> u64 {
    match *bytes {
        [a, b] => u64::from(u16::from_be_bytes([a, b])),
        [a, b, c, d] => u64::from(u32::from_be_bytes([a, b, c, d])),
        [a, b, c, d, e, f, g, h] => u64::from_be_bytes([a, b, c, d, e, f, g, h]),
        _ => 0,
    }
}

/// Whether a list is whole blocks, not too many, each within low and high.
#[inline(always)]
fn good<const K: usize>(list: &[u8], low: u64, high: u64) -> bool {
    if list.len() % (2 * K) != 0 || list.len() > MOST * 2 * K {
        return false;
    }
    let mut good = true;
    for block in list.chunks_exact(2 * K) {
        let (start, end) = (number::<K>(&block[..K]), number::<K>(&block[K..]));
        good &= (low <= start) & (start <= end) & (end <= high);
    }
    good
}

/// The bytes of n blocks in TLVs.
fn tlvs(n: usize, size: usize) -> usize {
    2 * size * n + 2 * n.div_ceil(255 / (2 * size))
}

#[inline(always)]
fn put<'a, const K: usize, const SIZE: usize>(list: &[u8], out: &'a mut [u8]) -> &'a mut [u8] {
    let (here, rest) = out.split_at_mut(list.len() / K * SIZE);
    if K == SIZE {
        here.copy_from_slice(list);
        return rest;
    }
    for (from, to) in list.chunks_exact(K).zip(here.chunks_exact_mut(SIZE)) {
        to.copy_from_slice(&from[K - SIZE..]);
    }
    rest
}

#[inline(always)]
fn put_tlvs<'a, const K: usize, const SIZE: usize>(
    kind: u8,
    list: &[u8],
    mut out: &'a mut [u8],
) -> &'a mut [u8] {
    for part in list.chunks(255 / (2 * SIZE) * 2 * K) {
        let (head, rest) = out.split_at_mut(2);
        head.copy_from_slice(&[kind, (part.len() / K * SIZE) as u8]);
        out = put::<K, SIZE>(part, rest);
    }
    out
}

pub unsafe extern "C" fn write_flush(
    nicknames: *const u8,
    nicknames_len: usize,
    vlans: *const u8,
    vlans_len: usize,
    fine: *const u8,
    fine_len: usize,
    macs: *const u8,
    macs_len: usize,
    out: *mut u8,
    out_len: usize,
) -> u64 {
    // SAFETY: as the library's callers.
    let (nicknames, vlans, fine, macs, out) = unsafe {
        (
            slice::from_raw_parts(nicknames, nicknames_len),
            slice::from_raw_parts(vlans, vlans_len),
            slice::from_raw_parts(fine, fine_len),
            slice::from_raw_parts(macs, macs_len),
            slice::from_raw_parts_mut(out, out_len),
        )
    };
    if vlans.is_empty() && fine.is_empty()
        || nicknames.len() % 2 != 0
        || nicknames.len() / 2 > MOST
        || !good::<2>(vlans, 1, 0xFFE)
        || !good::<4>(fine, 0, 0xFF_FFFF)
        || !good::<8>(macs, 0, 0xFFFF_FFFF_FFFF)
    {
        return LISTS;
    }
    let blocks_only = fine.is_empty() && macs.is_empty();
    let length = 2
        + nicknames.len()
        + if blocks_only {
            vlans.len()
        } else {
            tlvs(vlans.len() / 4, 2) + tlvs(fine.len() / 8, 3) + tlvs(macs.len() / 16, 6)
        };
    if out.len() < length {
        return OUTPUT_LENGTH;
    }
    out[0] = (nicknames.len() / 2) as u8;
    out[1..1 + nicknames.len()].copy_from_slice(nicknames);
    let (count, rest) = out[1 + nicknames.len()..].split_at_mut(1);
    if blocks_only {
        count[0] = (vlans.len() / 4) as u8;
        rest[..vlans.len()].copy_from_slice(vlans);
    } else {
        count[0] = 0;
        let rest = put_tlvs::<2, 2>(1, vlans, rest);
        let rest = put_tlvs::<4, 3>(3, fine, rest);
        put_tlvs::<8, 6>(8, macs, rest);
    }
    64 | (length as u64) << 8
}
