//! Ingress: a native frame becomes a General frame.

use std::slice;

use super::frame::{length_good, six, two, ALL_RBRIDGES, C_TAG};
use super::map::{judge, Wanted};
use super::record::{nickname_good, GROUP};
use super::refusal;
use super::settings::{is_individual, Port};

const WRITTEN: u64 = 64;
/// What the General frame is longer.
const MORE: usize = 24;

/// What the caller gives: outer destination and source, and the header's six bytes as a number.
struct Outer {
    destination: u64,
    source: u64,
    multicast: bool,
    hop_count: u32,
    egress: u32,
    ingress: u32,
}

impl Outer {
    fn header(&self) -> u64 {
        u64::from(self.multicast) << 43
            | u64::from(self.hop_count) << 32
            | u64::from(self.egress) << 16
            | u64::from(self.ingress)
    }
}

struct Native {
    source: u64,
    /// Priority, DEI and VLAN.
    tag: u16,
}

#[inline(always)]
fn native(frame: &[u8]) -> Result<Native, u64> {
    if !length_good(frame.len()) || !length_good(frame.len() + MORE) {
        return Err(refusal::FRAME_LENGTH);
    }
    if two(frame, 12)? != C_TAG {
        return Err(refusal::LABEL);
    }
    let tag = two(frame, 14)?;
    if (tag & 0xFFF).wrapping_sub(1) >= 0xFFE {
        return Err(refusal::LABEL);
    }
    two(frame, 16)?;
    Ok(Native {
        source: six(frame, 6)?,
        tag,
    })
}

#[inline(always)]
fn check(native: &Native, outer: &Outer) -> Result<(), u64> {
    if native.source & GROUP != 0 {
        return Err(refusal::GROUP_SOURCE);
    }
    if outer.hop_count.wrapping_sub(1) >= 63 {
        return Err(refusal::HOP_COUNT);
    }
    if !nickname_good(u64::from(outer.egress)) || !nickname_good(u64::from(outer.ingress)) {
        return Err(refusal::NICKNAME);
    }
    let agree = match outer.multicast {
        true => outer.destination == ALL_RBRIDGES,
        false => outer.destination & GROUP == 0,
    };
    match agree {
        true => Ok(()),
        false => Err(refusal::MULTICAST),
    }
}

/// The frame is read first, so that the map is judged and searched in one pass; what the frame gives counts only if the map is good.
#[inline(always)]
fn ingressed(map: &[u8], outer: &Outer, frame: &[u8], out: &mut [u8]) -> Result<u64, u64> {
    let native = native(frame);
    let wanted = match &native {
        Ok(native) => Wanted::Vlan(native.tag & 0xFFF),
        Err(_) => Wanted::Nothing,
    };
    let found = judge(map, wanted)?;
    let native = native?;
    check(&native, outer)?;
    let Some((_, label)) = found else {
        return Err(refusal::NO_PAIR);
    };
    let length = frame.len() + MORE;
    let Some(out) = out.get_mut(..length) else {
        return Err(refusal::OUTPUT_LENGTH);
    };
    // Two numbers of eight bytes are written over the next part's first bytes, which follow.
    let priority = u64::from(native.tag & 0xE000);
    let label = 0x893B_0000_893B_0000
        | (priority | u64::from(label >> 12)) << 32
        | priority
        | u64::from(label & 0xFFF);
    let (front, rest) = out.split_first_chunk_mut::<40>().expect("42 bytes or more");
    front[..8].copy_from_slice(&(outer.destination << 16 | outer.source >> 32).to_be_bytes());
    front[8..16]
        .copy_from_slice(&(outer.source << 32 | 0x22F3 << 16 | outer.header() >> 32).to_be_bytes());
    front[16..20].copy_from_slice(&(outer.header() as u32).to_be_bytes());
    front[20..32].copy_from_slice(&frame[..12]);
    front[32..].copy_from_slice(&label.to_be_bytes());
    rest.copy_from_slice(&frame[16..]);
    Ok(WRITTEN | (length as u64) << 8)
}

#[inline(never)]
pub unsafe extern "C" fn ingress(
    port: u64,
    inner: u64,
    nickname: u32,
    compact: u32,
    confidence: u32,
    seconds: u32,
    map: *const u8,
    map_len: usize,
    outer_destination: u64,
    outer_source: u64,
    m: u32,
    hop_count: u32,
    egress: u32,
    ingress: u32,
    frame: *const u8,
    frame_len: usize,
    out: *mut u8,
    out_len: usize,
) -> u64 {
    let good = Port::new(port, inner, nickname, compact, confidence, seconds).is_ok();
    if !good || !is_individual(outer_source) || outer_destination >> 48 != 0 || m > 1 {
        return refusal::SETTINGS;
    }
    let outer = Outer {
        destination: outer_destination,
        source: outer_source,
        multicast: m == 1,
        hop_count,
        egress,
        ingress,
    };
    let map = slice::from_raw_parts(map, map_len);
    let frame = slice::from_raw_parts(frame, frame_len);
    let out = slice::from_raw_parts_mut(out, out_len);
    ingressed(map, &outer, frame, out).unwrap_or_else(|refusal| refusal)
}
