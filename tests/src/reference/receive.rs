//! Reading one frame.

use super::answer::{word, Learning, Received};
use super::flush::clear;
use super::frame::{
    check_length as check_frame_length, front, is_reserved, read_compact, read_general, Fields,
    Front, CHANNEL, C_TAG,
};
use super::homes::learn;
use super::map::{CampusLabel, Map, PortVlan};
use super::record::{Entry, Label};
use super::refusal::Refusal;
use super::settings::{MultihomingBit, Port, Settings, DEFAULT_LIFE};
use super::table::check_length as check_table_length;
use super::{is_group, is_nickname, number};

/// 01-80-C2-00-00-42
const ALL_EGRESS_RBRIDGES: u64 = 0x0180_C200_0042;

/// "The protocol number is that of section 3 of document 004."
const ADDRESS_FLUSH: u64 = 0x009;

pub fn receive(settings: &Settings, frame: &[u8], table: &mut [u8], out: &mut [u8]) -> u64 {
    receive_port(&settings.six(), &[], frame, table, out)
}

/// Reading at a port with a map and the setting that says which bit marks frames (document 02, 2026-01 and 2026-12); without them it is
/// `receive`.
pub fn receive_port(
    settings: &Settings,
    map: &[u8],
    frame: &[u8],
    table: &mut [u8],
    out: &mut [u8],
) -> u64 {
    receive_with(DEFAULT_LIFE, settings, map, frame, table, out)
}

/// Reading with another default of the learning seconds.
pub fn receive_with(
    life: u16,
    settings: &Settings,
    map: &[u8],
    frame: &[u8],
    table: &mut [u8],
    out: &mut [u8],
) -> u64 {
    word(
        settings
            .check_with(life)
            .and_then(|port| received(&port, map, frame, table, out)),
    )
}

/// "Order: 1, 2, 3, 5; then the fields from left to right, with 6, 4, 7, 12, 10 at the field where
/// each arises [..]. Then, on the fields read and alike for both formats: 8, 9, 11; onward; 13; 6
/// where the four bytes after 8946 are cut; 14, 15, 16." "A refusal returns the number only and
/// changes nothing." Document 02, 2026-01: "21 [..] (after 2), 22 no pair found (before 16)".
fn received(
    port: &Port,
    map: &[u8],
    frame: &[u8],
    table: &mut [u8],
    out: &mut [u8],
) -> Result<Received, Refusal> {
    check_table_length(table)?;
    let map = Map::check(map)?;
    check_frame_length(frame.len())?;
    // "Anything else is Compact if the port has it on, else refusal 5."
    let fields = match front(port.port, frame) {
        Front::General => read_general(frame)?,
        Front::Compact if port.compact => read_compact(frame)?,
        Front::Compact | Front::Reserved => return Err(Refusal::NotForThisPort),
    };
    // 8: "Hop Count 0"
    if fields.hop_count == 0 {
        return Err(Refusal::HopCount);
    }
    // 9: "a nickname outside 0001 to FFBF, or ingress nickname our own". Document 02, 2026-13: "A port with Smart Endnodes on doesn't
    // refuse our own ingress nickname [..]; other ports keep 9."
    if !is_nickname(u64::from(fields.egress))
        || !is_nickname(u64::from(fields.ingress))
        || fields.ingress == port.nickname && !port.smart
    {
        return Err(Refusal::Nickname);
    }
    // 11: "inner source is a group address"
    if is_group(fields.inner_source) {
        return Err(Refusal::GroupSource);
    }
    // "Onward: M is 0 and egress is not our nickname. The answer says so and nothing changes."
    if !fields.multicast && fields.egress != port.nickname {
        return Ok(Received::Onward);
    }
    let (ethertype, rest) = fields.content.split_at(fields.content.len().min(2));
    if number(ethertype) == CHANNEL {
        channel(port, &fields, rest, table)
    } else {
        deliver(port, &map, &fields, table, out)
    }
}

/// "Otherwise, unless the content starts 8946, the native frame (inner destination, inner source,
/// content) is written at the start of the output area, the rest of which stays; the answer gives
/// its length, its label, and learned, refreshed, kept or full."
fn deliver(
    port: &Port,
    map: &Map,
    fields: &Fields,
    table: &mut [u8],
    out: &mut [u8],
) -> Result<Received, Refusal> {
    // 13: "inner destination :40 to :4F, content not 8946"
    if is_reserved(fields.inner_destination) {
        return Err(Refusal::ReservedDestination);
    }
    let native = [fields.addresses, &port_tag(map, fields)?, fields.content].concat();
    // 16: "output area shorter than the result"
    let Some(area) = out.get_mut(..native.len()) else {
        return Err(Refusal::OutputLength);
    };
    area.copy_from_slice(&native);
    let entry = Entry {
        label: fields.label,
        mac: fields.inner_source,
        nickname: fields.ingress,
        confidence: port.confidence,
        seconds: port.seconds,
        multihomed: is_marked(port.multihomed, fields),
    };
    // Document 02, 2026-13: "and learns nothing from such frames (answer kept)"
    let learning = if fields.ingress == port.nickname {
        Learning::Kept
    } else {
        learn(table, &entry)
    };
    Ok(Received::Delivered {
        length: native.len(),
        learning,
        label: fields.label,
    })
}

/// "TRILL header, 6 bytes: V 2 bits, R 2, M 1, [..]": the R bits are the third and the fourth of the first byte. "Document 003 marks a
/// station on two switches by a multihoming header bit."
fn is_marked(bit: MultihomingBit, fields: &Fields) -> bool {
    let first = fields.header.first().copied().unwrap_or_default();
    match bit {
        MultihomingBit::None => false,
        MultihomingBit::FirstReserved => first & 0x20 != 0,
        MultihomingBit::SecondReserved => first & 0x10 != 0,
    }
}

/// "Outbound, a delivered fine-grained frame gets the VLAN tag back, with the second label part's
/// priority and DEI 0. Without a map (an empty one is none), or with a VLAN label, delivery stays as it
/// is" (document 02, 2026-01).
fn port_tag(map: &Map, fields: &Fields) -> Result<Vec<u8>, Refusal> {
    let Label::Fine(label) = fields.label else {
        return Ok(Vec::new());
    };
    if map.is_none() {
        return Ok(Vec::new());
    }
    let PortVlan(vlan) = map.vlan_of(CampusLabel(label))?;
    // 893B and two bytes, twice; the priority is the highest three bits of the last two.
    let priority = number(&fields.label_bytes[6..]) as u16 >> 13;
    let tag = [C_TAG as u16, priority << 13 | vlan];
    Ok(tag.map(u16::to_be_bytes).concat())
}

/// "Content: 8946, version 4 bits, protocol 12, flags 12 (not read), ERR 4, payload." "Channel
/// frames write no native frame and teach no address." `rest` is what follows 8946.
fn channel(
    port: &Port,
    fields: &Fields,
    rest: &[u8],
    table: &mut [u8],
) -> Result<Received, Refusal> {
    // "6 where the four bytes after 8946 are cut"
    if rest.len() < 4 {
        return Err(Refusal::Cut);
    }
    let (header, payload) = rest.split_at(4);
    let bits = number(header);
    let version = bits >> 28;
    let protocol = (bits >> 16) & 0xFFF;
    let err = bits & 0xF;
    // 14: "channel: version or ERR not 0, or destination neither own inner address nor
    // 01-80-C2-00-00-42"
    let destination = fields.inner_destination;
    if version != 0 || err != 0 || (destination != port.inner && destination != ALL_EGRESS_RBRIDGES)
    {
        return Err(Refusal::Channel);
    }
    // "another number gives "other channel" (after 14), nothing changed"
    if protocol != ADDRESS_FLUSH {
        return Ok(Received::OtherChannel);
    }
    clear(u32::from(fields.ingress), payload, table).map(Received::Flushed)
}
