//! Compacting, expanding, sending.

use std::mem;
use std::slice;

use super::frame::{is_reserved, length_good, six, Fields, Front, ALL_RBRIDGES, C_TAG};
use super::record::FINE;
use super::refusal;
use super::settings::{is_individual, Port};

const WRITTEN: u64 = 64;
const COMPACTED: u64 = 64;
const ITSELF: u64 = 65;
/// The bytes of a working area in which every compacted frame has room.
const WORKING_AREA: usize = 9204;

/// The fields of a frame that compaction reads: a General frame of good length.
#[inline(always)]
fn general(port: &Port, frame: &[u8]) -> Result<Fields, u64> {
    if !length_good(frame.len()) {
        return Err(refusal::FRAME_LENGTH);
    }
    let destination = six(frame, 0)?;
    match Front::new(destination, port.port) {
        Front::General => Fields::general(frame, destination),
        Front::Reserved => Err(refusal::NOT_FOR_THIS_PORT),
        Front::Compact => Err(refusal::NOT_COMPACTABLE),
    }
}

fn may_be_compacted(port: &Port, fields: &Fields) -> bool {
    !is_reserved(fields.inner_destination) && fields.inner_destination != port.port
}

/// An area that is written from its start.
struct Writer<'a> {
    area: &'a mut [u8],
}

impl<'a> Writer<'a> {
    /// Takes so many bytes of an area, or refuses where it is shorter.
    fn new(area: &'a mut [u8], length: usize) -> Result<Writer<'a>, u64> {
        match area.get_mut(..length) {
            Some(area) => Ok(Writer { area }),
            None => Err(refusal::OUTPUT_LENGTH),
        }
    }

    #[inline(always)]
    fn put(&mut self, part: &[u8]) {
        let (to, rest) = mem::take(&mut self.area).split_at_mut(part.len());
        to.copy_from_slice(part);
        self.area = rest;
    }

    /// So many bytes of the frame, a number that the compiler knows.
    #[inline(always)]
    fn put_fixed<const COUNT: usize>(&mut self, frame: &[u8], at: usize) {
        let part = frame[at..].first_chunk::<COUNT>();
        self.put(part.expect("the field was read"));
    }

    /// The two inner addresses and the label.
    #[inline(always)]
    fn put_inner(&mut self, fields: &Fields, frame: &[u8]) {
        if fields.label < FINE {
            self.put_fixed::<16>(frame, fields.addresses_at);
        } else {
            self.put_fixed::<20>(frame, fields.addresses_at);
        }
    }

    /// 22F3 and the header with its options.
    #[inline(always)]
    fn put_header(&mut self, fields: &Fields, frame: &[u8]) {
        self.put_fixed::<8>(frame, fields.header_at - 2);
        let options = fields.header_at + 6..fields.header_end;
        if !options.is_empty() {
            self.put(&frame[options]);
        }
    }
}

/// Writes the compacted frame and gives its length.
#[inline(always)]
fn write_compact(fields: &Fields, frame: &[u8], area: &mut [u8]) -> Result<u64, u64> {
    // What falls away is all before 22F3.
    let length = frame.len() - (fields.header_at - 2);
    let mut to = Writer::new(area, length)?;
    to.put_inner(fields, frame);
    to.put_header(fields, frame);
    to.put(&frame[fields.content_at..]);
    Ok(length as u64)
}

#[inline(always)]
fn compacted(port: &Port, frame: &[u8], out: &mut [u8]) -> Result<u64, u64> {
    let fields = general(port, frame)?;
    if !may_be_compacted(port, &fields) {
        return Err(refusal::NOT_COMPACTABLE);
    }
    Ok(WRITTEN | write_compact(&fields, frame, out)? << 8)
}

#[inline(always)]
pub(super) fn sent(port: &Port, frame: &[u8], work: &mut [u8]) -> Result<u64, u64> {
    if work.len() < WORKING_AREA {
        return Err(refusal::OUTPUT_LENGTH);
    }
    let fields = general(port, frame)?;
    if !port.compact || !may_be_compacted(port, &fields) {
        return Ok(ITSELF);
    }
    Ok(COMPACTED | write_compact(&fields, frame, work)? << 8)
}

/// The six bytes of an address.
fn address(address: u64) -> [u8; 6] {
    let [_, _, bytes @ ..] = address.to_be_bytes();
    bytes
}

#[inline(always)]
fn expanded(
    port: &Port,
    outer_source: u64,
    tag: Option<u32>,
    frame: &[u8],
    out: &mut [u8],
) -> Result<u64, u64> {
    let length = frame
        .len()
        .saturating_add(if tag.is_some() { 16 } else { 12 });
    if !length_good(frame.len()) || !length_good(length) {
        return Err(refusal::FRAME_LENGTH);
    }
    let fields = match Front::new(six(frame, 0)?, port.port) {
        Front::General => return Err(refusal::GENERAL),
        Front::Reserved => return Err(refusal::NOT_FOR_THIS_PORT),
        Front::Compact => Fields::compact(frame)?,
    };
    let mut to = Writer::new(out, length)?;
    let destination = if fields.multicast {
        ALL_RBRIDGES
    } else {
        port.port
    };
    to.put(&address(destination));
    to.put(&address(outer_source));
    if let Some(tag) = tag {
        to.put(&(u32::from(C_TAG) << 16 | tag).to_be_bytes());
    }
    to.put_header(&fields, frame);
    to.put_inner(&fields, frame);
    to.put(&frame[fields.content_at..]);
    Ok(WRITTEN | (length as u64) << 8)
}

#[inline(never)]
pub unsafe extern "C" fn compact(
    port: u64,
    inner: u64,
    nickname: u32,
    compact: u32,
    confidence: u32,
    seconds: u32,
    frame: *const u8,
    frame_len: usize,
    out: *mut u8,
    out_len: usize,
) -> u64 {
    let port = match Port::new(port, inner, nickname, compact, confidence, seconds) {
        Ok(port) => port,
        Err(refusal) => return refusal,
    };
    let frame = slice::from_raw_parts(frame, frame_len);
    let out = slice::from_raw_parts_mut(out, out_len);
    compacted(&port, frame, out).unwrap_or_else(|refusal| refusal)
}

#[inline(never)]
pub unsafe extern "C" fn send(
    port: u64,
    inner: u64,
    nickname: u32,
    compact: u32,
    confidence: u32,
    seconds: u32,
    frame: *const u8,
    frame_len: usize,
    work: *mut u8,
    work_len: usize,
) -> u64 {
    let port = match Port::new(port, inner, nickname, compact, confidence, seconds) {
        Ok(port) => port,
        Err(refusal) => return refusal,
    };
    let frame = slice::from_raw_parts(frame, frame_len);
    let work = slice::from_raw_parts_mut(work, work_len);
    sent(&port, frame, work).unwrap_or_else(|refusal| refusal)
}

#[inline(never)]
pub unsafe extern "C" fn expand(
    port: u64,
    inner: u64,
    nickname: u32,
    compact: u32,
    confidence: u32,
    seconds: u32,
    outer_source: u64,
    tagged: u32,
    tag: u32,
    frame: *const u8,
    frame_len: usize,
    out: *mut u8,
    out_len: usize,
) -> u64 {
    let port = match Port::new(port, inner, nickname, compact, confidence, seconds) {
        Ok(port) => port,
        Err(refusal) => return refusal,
    };
    if !is_individual(outer_source) {
        return refusal::SETTINGS;
    }
    let tag = match (tagged, tag) {
        (0, _) => None,
        (1, 0x001..=0xFFE) => Some(tag),
        _ => return refusal::SETTINGS,
    };
    let frame = slice::from_raw_parts(frame, frame_len);
    let out = slice::from_raw_parts_mut(out, out_len);
    expanded(&port, outer_source, tag, frame, out).unwrap_or_else(|refusal| refusal)
}
