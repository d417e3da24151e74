//! Compacting, expanding, sending.

use super::address_bytes;
use super::answer::{word, Sent, Written};
use super::frame::{
    check_length, front, is_control, is_reserved, read_compact, read_general, Fields, Front,
    ALL_RBRIDGES, C_TAG, TRILL,
};
use super::refusal::Refusal;
use super::settings::{check_outer_source, Port, Settings};

/// "when the working area has 9,204 bytes or more" (document 02, 2026-11)
pub const WORKING_AREA: usize = 9204;

/// "Compaction takes a General frame and the far port's settings and refuses as reading does up to
/// the content's 6."
fn read_for_compaction<'a>(port: &Port, frame: &'a [u8]) -> Result<Fields<'a>, Refusal> {
    check_length(frame.len())?;
    match front(port.port, frame) {
        Front::General => read_general(frame),
        Front::Reserved => Err(Refusal::NotForThisPort),
        // "a Compact frame in front is 17 at the field of 5"
        Front::Compact => Err(Refusal::NotCompactable),
    }
}

/// "Then 17 if the inner destination is :40 to :4F or the far port's address"; "Inner destinations
/// 01-80-C2-00-00-00 to 0F, and 21, now give 17" (document 02, 2026-09)
fn may_be_compacted(port: &Port, fields: &Fields) -> bool {
    let destination = fields.inner_destination;
    !is_reserved(destination) && !is_control(destination) && destination != port.port
}

/// "Compact: inner destination, inner source, label, 22F3, header, content."
fn compact_frame(fields: &Fields) -> Vec<u8> {
    [
        fields.addresses,
        fields.label_bytes,
        &two_bytes(TRILL),
        fields.header,
        fields.content,
    ]
    .concat()
}

/// "then 16"; "What they write starts their area; the rest stays."
fn write_result(result: &[u8], area: &mut [u8]) -> Result<usize, Refusal> {
    match area.get_mut(..result.len()) {
        Some(start) => {
            start.copy_from_slice(result);
            Ok(result.len())
        }
        None => Err(Refusal::OutputLength),
    }
}

fn two_bytes(number: u64) -> [u8; 2] {
    (number as u16).to_be_bytes()
}

/// "Compact on or off doesn't bear on these two calls."
pub fn compact(settings: &Settings, frame: &[u8], out: &mut [u8]) -> u64 {
    word(compacted(&settings.six(), frame, out))
}

fn compacted(settings: &Settings, frame: &[u8], out: &mut [u8]) -> Result<Written, Refusal> {
    let port = settings.check()?;
    let fields = read_for_compaction(&port, frame)?;
    if !may_be_compacted(&port, &fields) {
        return Err(Refusal::NotCompactable);
    }
    write_result(&compact_frame(&fields), out).map(Written)
}

/// "Expansion takes a Compact frame, the far port's settings, an outer source (a group address is 1)
/// and an optional outer tag number 1 to FFE (else 1)." `tagged` 0 is no tag, 1 the number in `tag`,
/// any other number is 1.
pub fn expand(
    settings: &Settings,
    outer_source: u64,
    tagged: u32,
    tag: u32,
    frame: &[u8],
    out: &mut [u8],
) -> u64 {
    word(expanded(
        &settings.six(),
        outer_source,
        tagged,
        tag,
        frame,
        out,
    ))
}

fn expanded(
    settings: &Settings,
    outer_source: u64,
    tagged: u32,
    tag: u32,
    frame: &[u8],
    out: &mut [u8],
) -> Result<Written, Refusal> {
    let port = settings.check()?;
    let outer_source = check_outer_source(outer_source)?;
    let tag = match (tagged, tag) {
        (0, _) => None,
        (1, 0x001..=0xFFE) => Some(tag),
        _ => return Err(Refusal::Settings),
    };
    // "3 in its place covers the frame's length, then the result's"
    check_length(frame.len())?;
    check_length(frame.len() + if tag.is_some() { 16 } else { 12 })?;
    // "It refuses as reading a Compact frame does up to the content's 6, with 18 at the field of 5
    // where the destination in front means General"
    let fields = match front(port.port, frame) {
        Front::General => return Err(Refusal::General),
        Front::Reserved => return Err(Refusal::NotForThisPort),
        Front::Compact => read_compact(frame)?,
    };
    // "It writes the far port as destination, or :40 where M is 1, [..]"
    let destination = if fields.multicast {
        ALL_RBRIDGES
    } else {
        port.port
    };
    // "[..] and the tag with priority and DEI 0."
    let tag = match tag {
        Some(tag) => [two_bytes(C_TAG), two_bytes(u64::from(tag))].concat(),
        None => Vec::new(),
    };
    let result = [
        &address_bytes(destination),
        &address_bytes(outer_source),
        tag.as_slice(),
        &two_bytes(TRILL),
        fields.header,
        fields.addresses,
        fields.label_bytes,
        fields.content,
    ]
    .concat();
    write_result(&result, out).map(Written)
}

/// "Sending compacts where it may: the answer shows either a part of the working area or the
/// received frame itself, the latter, with the working area unchanged, exactly where compaction
/// gives 17 for the inner destination, or where the frame passes every check before that one and the
/// far port has Compact off. Other refusals stand." "Sending now gives 16 exactly if the area is
/// shorter, after 1 and before reading the frame" (document 02, 2026-11).
pub fn send(settings: &Settings, frame: &[u8], work: &mut [u8]) -> u64 {
    word(sent(&settings.six(), frame, work))
}

fn sent(settings: &Settings, frame: &[u8], work: &mut [u8]) -> Result<Sent, Refusal> {
    let port = settings.check()?;
    if work.len() < WORKING_AREA {
        return Err(Refusal::OutputLength);
    }
    let fields = read_for_compaction(&port, frame)?;
    if !may_be_compacted(&port, &fields) || !port.compact {
        return Ok(Sent::Itself);
    }
    let result = compact_frame(&fields);
    work[..result.len()].copy_from_slice(&result);
    Ok(Sent::Compacted(result.len()))
}
