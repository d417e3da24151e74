//! Reading one frame.

use std::slice;

use super::flush::clear;
use super::frame::{is_trill_group, length_good, six, two, Fields, Front, C_TAG};
use super::homes::{learn, Learning};
use super::map::{judge, Wanted};
use super::record::{nickname_good, slots_mut, Slot, FINE, GROUP};
use super::refusal;
use super::settings::Port;

const ONWARD: u64 = 64;
const DELIVERED: u64 = 65;
const OTHER_CHANNEL: u64 = 66;

const CHANNEL: u16 = 0x8946;
const ADDRESS_FLUSH: u32 = 0x009;

/// 01-80-C2-00-00-42
const ALL_EGRESS_RBRIDGES: u64 = 0x0180_C200_0042;

#[inline(never)]
pub unsafe extern "C" fn receive(
    port: u64,
    inner: u64,
    nickname: u32,
    compact: u32,
    confidence: u32,
    seconds: u32,
    frame: *const u8,
    frame_len: usize,
    table: *mut u8,
    table_len: usize,
    out: *mut u8,
    out_len: usize,
) -> u64 {
    let port = match Port::new(port, inner, nickname, compact, confidence, seconds) {
        Ok(port) => port,
        Err(refusal) => return refusal,
    };
    let Some(slots) = slots_mut(table, table_len) else {
        return refusal::TABLE_LENGTH;
    };
    if !length_good(frame_len) {
        return refusal::FRAME_LENGTH;
    }
    let frame = slice::from_raw_parts(frame, frame_len);
    let out = slice::from_raw_parts_mut(out, out_len);
    received(&port, frame, slots, out).unwrap_or_else(|refusal| refusal)
}

#[inline(never)]
pub unsafe extern "C" fn receive_port(
    port: u64,
    inner: u64,
    nickname: u32,
    compact: u32,
    confidence: u32,
    seconds: u32,
    multihomed: u32,
    smart: u32,
    map: *const u8,
    map_len: usize,
    frame: *const u8,
    frame_len: usize,
    table: *mut u8,
    table_len: usize,
    out: *mut u8,
    out_len: usize,
) -> u64 {
    let port = match Port::new(port, inner, nickname, compact, confidence, seconds) {
        Ok(port) if multihomed <= 2 && smart <= 1 => port.with(multihomed, smart),
        _ => return refusal::SETTINGS,
    };
    let Some(slots) = slots_mut(table, table_len) else {
        return refusal::TABLE_LENGTH;
    };
    let frame = slice::from_raw_parts(frame, frame_len);
    let out = slice::from_raw_parts_mut(out, out_len);
    if map_len != 0 {
        let map = slice::from_raw_parts(map, map_len);
        return mapped(&port, map, frame, slots, out).unwrap_or_else(|refusal| refusal);
    }
    if !length_good(frame_len) {
        return refusal::FRAME_LENGTH;
    }
    received(&port, frame, slots, out).unwrap_or_else(|refusal| refusal)
}

/// Reading with a map that is not empty. The frame is read first, so that the map is judged and searched in one pass; what the frame
/// gives counts only if the map is good.
#[inline(always)]
fn mapped(
    port: &Port,
    map: &[u8],
    frame: &[u8],
    slots: &mut [Slot],
    out: &mut [u8],
) -> Result<u64, u64> {
    let fields = match length_good(frame.len()) {
        true => parse(port, frame),
        false => Err(refusal::FRAME_LENGTH),
    };
    let wanted = match &fields {
        Ok(fields) if fields.label >= FINE => Wanted::Label(fields.label % FINE),
        _ => Wanted::Nothing,
    };
    let found = judge(map, wanted)?;
    let fields = fields?;
    if is_onward(port, &fields)? {
        return Ok(ONWARD);
    }
    if two(frame, fields.content_at)? == CHANNEL {
        return channel(port, &fields, &frame[fields.content_at + 2..], slots);
    }
    if fields.label < FINE {
        return deliver(port, &fields, frame, None, slots, out);
    }
    if is_trill_group(fields.inner_destination) {
        return Err(refusal::RESERVED_DESTINATION);
    }
    let Some((vlan, _)) = found else {
        return Err(refusal::NO_PAIR);
    };
    // The second part of the label ends at the header in Compact Format, else at the content.
    let second = match fields.addresses_at {
        0 => two(frame, 18)?,
        _ => two(frame, fields.content_at - 2)?,
    };
    let tag = u32::from(C_TAG) << 16 | u32::from(second & 0xE000 | vlan);
    deliver(port, &fields, frame, Some(tag.to_be_bytes()), slots, out)
}

#[inline(always)]
fn parse(port: &Port, frame: &[u8]) -> Result<Fields, u64> {
    let destination = six(frame, 0)?;
    match Front::new(destination, port.port) {
        Front::General => Fields::general(frame, destination),
        Front::Compact if port.compact => Fields::compact(frame),
        _ => Err(refusal::NOT_FOR_THIS_PORT),
    }
}

#[inline(always)]
fn is_onward(port: &Port, fields: &Fields) -> Result<bool, u64> {
    if fields.hop_count == 0 {
        return Err(refusal::HOP_COUNT);
    }
    if !nickname_good(u64::from(fields.egress))
        || !nickname_good(u64::from(fields.ingress))
        || fields.ingress == port.nickname && !port.smart
    {
        return Err(refusal::NICKNAME);
    }
    if fields.inner_source & GROUP != 0 {
        return Err(refusal::GROUP_SOURCE);
    }
    Ok(!fields.multicast && fields.egress != port.nickname)
}

#[inline(always)]
fn received(port: &Port, frame: &[u8], slots: &mut [Slot], out: &mut [u8]) -> Result<u64, u64> {
    let fields = parse(port, frame)?;
    if is_onward(port, &fields)? {
        return Ok(ONWARD);
    }
    if two(frame, fields.content_at)? == CHANNEL {
        channel(port, &fields, &frame[fields.content_at + 2..], slots)
    } else {
        deliver(port, &fields, frame, None, slots, out)
    }
}

#[inline(always)]
fn deliver(
    port: &Port,
    fields: &Fields,
    frame: &[u8],
    tag: Option<[u8; 4]>,
    slots: &mut [Slot],
    out: &mut [u8],
) -> Result<u64, u64> {
    if is_trill_group(fields.inner_destination) {
        return Err(refusal::RESERVED_DESTINATION);
    }
    let content = &frame[fields.content_at..];
    let tag_len = if tag.is_some() { 4 } else { 0 };
    let length = 12 + tag_len + content.len();
    let Some(native) = out.get_mut(..length) else {
        return Err(refusal::OUTPUT_LENGTH);
    };
    let (addresses, rest) = native.split_at_mut(12);
    addresses.copy_from_slice(&frame[fields.addresses_at..][..12]);
    let (tagged, rest) = rest.split_at_mut(tag_len);
    if let Some(tag) = tag {
        tagged.copy_from_slice(&tag);
    }
    rest.copy_from_slice(content);
    let learning = match fields.ingress == port.nickname {
        true => Learning::Kept,
        false => learn(
            slots,
            fields.label,
            fields.inner_source,
            fields.ingress,
            port.confidence,
            port.seconds,
            frame[fields.header_at] & port.mark != 0,
        ),
    };
    let kind = fields.label / FINE;
    let label = fields.label % FINE;
    Ok(DELIVERED
        | (length as u64) << 8
        | (learning as u64) << 24
        | u64::from(kind) << 32
        | u64::from(label) << 40)
}

/// `rest` is what follows 8946.
fn channel(port: &Port, fields: &Fields, rest: &[u8], slots: &mut [Slot]) -> Result<u64, u64> {
    let Some((header, payload)) = rest.split_first_chunk::<4>() else {
        return Err(refusal::CUT);
    };
    // Version 4 bits, protocol 12, flags 12, ERR 4.
    let bits = u32::from_be_bytes(*header);
    let destination = fields.inner_destination;
    if bits & 0xF000_000F != 0 || (destination != port.inner && destination != ALL_EGRESS_RBRIDGES)
    {
        return Err(refusal::CHANNEL);
    }
    if bits >> 16 != ADDRESS_FLUSH {
        return Ok(OTHER_CHANNEL);
    }
    clear(u32::from(fields.ingress), payload, slots)
}
