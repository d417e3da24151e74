//! The fields of a frame, General or Compact, with the refusals in their order.

use super::number;
use super::record::Label;
use super::refusal::Refusal;

pub const TRILL: u64 = 0x22F3;
pub const C_TAG: u64 = 0x8100;
pub const FINE_TAG: u64 = 0x893B;
pub const CHANNEL: u64 = 0x8946;

/// 01-80-C2-00-00-40
pub const ALL_RBRIDGES: u64 = 0x0180_C200_0040;

/// "inner destination :40 to :4F"
pub fn is_reserved(address: u64) -> bool {
    (0x0180_C200_0040..=0x0180_C200_004F).contains(&address)
}

/// "01-80-C2-00-00-00 to 0F, and 21" (document 02, 2026-09), one by one.
const CONTROL: [u64; 17] = [
    0x0180_C200_0000,
    0x0180_C200_0001,
    0x0180_C200_0002,
    0x0180_C200_0003,
    0x0180_C200_0004,
    0x0180_C200_0005,
    0x0180_C200_0006,
    0x0180_C200_0007,
    0x0180_C200_0008,
    0x0180_C200_0009,
    0x0180_C200_000A,
    0x0180_C200_000B,
    0x0180_C200_000C,
    0x0180_C200_000D,
    0x0180_C200_000E,
    0x0180_C200_000F,
    0x0180_C200_0021,
];

pub fn is_control(address: u64) -> bool {
    CONTROL.contains(&address)
}

/// 3: "frame (or expanded result) outside 14 to 9,216 bytes"
pub fn check_length(length: usize) -> Result<(), Refusal> {
    if (14..=9216).contains(&length) {
        Ok(())
    } else {
        Err(Refusal::FrameLength)
    }
}

/// What the destination in front says, before Compact on or off is looked at.
#[derive(Clone, Copy, Debug, PartialEq, Eq)]
pub enum Front {
    General,
    Compact,
    /// 01-80-C2-00-00-41 to 4F, and control addresses
    Reserved,
}

/// "The destination in front decides: this port's address or 01-80-C2-00-00-40 means General. Other
/// addresses 01-80-C2-00-00-41 to 4F are refusal 5. Anything else is Compact if the port has it on,
/// else refusal 5." "In front of a received frame these addresses give 5, even with Compact on, and
/// compaction and expansion give 5 as well" (document 02, 2026-09).
pub fn front(port: u64, frame: &[u8]) -> Front {
    let destination = destination(frame);
    if destination == port || destination == ALL_RBRIDGES {
        Front::General
    } else if is_reserved(destination) || is_control(destination) {
        Front::Reserved
    } else {
        Front::Compact
    }
}

/// The destination in front.
pub fn destination(frame: &[u8]) -> u64 {
    number(frame.get(..6).unwrap_or_default())
}

/// The fields read from a frame, alike for both formats.
pub struct Fields<'a> {
    /// The six bytes of the TRILL header and its options.
    pub header: &'a [u8],
    pub multicast: bool,
    pub hop_count: u8,
    pub egress: u16,
    pub ingress: u16,
    /// Inner destination and inner source, 12 bytes.
    pub addresses: &'a [u8],
    pub inner_destination: u64,
    pub inner_source: u64,
    /// The bytes of the label, 4 or 8.
    pub label_bytes: &'a [u8],
    pub label: Label,
    /// At least 2 bytes, its Ethertype first.
    pub content: &'a [u8],
}

/// A frame read from left to right.
struct Reader<'a> {
    frame: &'a [u8],
    at: usize,
}

impl<'a> Reader<'a> {
    /// "6 if the field is cut"
    fn take(&mut self, count: usize) -> Result<&'a [u8], Refusal> {
        let taken = self.frame.get(self.at..self.at + count);
        self.at += count;
        taken.ok_or(Refusal::Cut)
    }

    fn since(&self, start: usize) -> &'a [u8] {
        self.frame.get(start..self.at).unwrap_or_default()
    }
}

/// "General: outer destination, outer source, optional 8100 tag of 4 bytes (content not read),
/// 22F3, header, inner destination, inner source, label, content."
pub fn read_general(frame: &[u8]) -> Result<Fields<'_>, Refusal> {
    let mut reader = Reader { frame, at: 0 };
    let destination = number(reader.take(6)?);
    reader.take(6)?;
    // "a tag's Ethertype and its other two bytes being two fields"
    let mut ethertype = number(reader.take(2)?);
    if ethertype == C_TAG {
        reader.take(2)?;
        ethertype = number(reader.take(2)?);
    }
    // 4: "22F3 not at its place"
    if ethertype != TRILL {
        return Err(Refusal::NotTrill);
    }
    let header = read_header(&mut reader, Some(destination))?;
    let addresses = reader.take(12)?;
    let (label, label_bytes) = read_label(&mut reader)?;
    fields(&mut reader, header, addresses, label, label_bytes)
}

/// "Compact: inner destination, inner source, label, 22F3, header, content."
pub fn read_compact(frame: &[u8]) -> Result<Fields<'_>, Refusal> {
    let mut reader = Reader { frame, at: 0 };
    let addresses = reader.take(12)?;
    let (label, label_bytes) = read_label(&mut reader)?;
    if number(reader.take(2)?) != TRILL {
        return Err(Refusal::NotTrill);
    }
    let header = read_header(&mut reader, None)?;
    fields(&mut reader, header, addresses, label, label_bytes)
}

/// "TRILL header, 6 bytes: V 2 bits, R 2, M 1, Op-Length 5, Hop Count 6, egress nickname 16, ingress
/// nickname 16; then Op-Length times 4 option bytes, not interpreted. R is kept and not tested."
/// The General destination is given for a General frame.
fn read_header<'a>(
    reader: &mut Reader<'a>,
    general_destination: Option<u64>,
) -> Result<&'a [u8], Refusal> {
    let start = reader.at;
    let bits = number(reader.take(6)?);
    let version = bits >> 46;
    let multicast = (bits >> 43) & 1 == 1;
    let option_length = (bits >> 38) & 0x1F;
    // "7 before 12, once all six header bytes are there"
    if version != 0 {
        return Err(Refusal::Version);
    }
    // "A General frame has the :40 address exactly if M is 1."
    if let Some(destination) = general_destination {
        if (destination == ALL_RBRIDGES) != multicast {
            return Err(Refusal::Multicast);
        }
    }
    reader.take(4 * option_length as usize)?;
    Ok(reader.since(start))
}

/// "Label: VLAN is 8100, then priority 3, DEI 1, VLAN 12. Fine-grained is 893B, priority 3, DEI 1,
/// high 12 bits; 893B, priority 3, DEI 1, low 12 bits. VLAN 0 and FFF are refused; all 24-bit values
/// are allowed." A tag's Ethertype and its other two bytes are two fields.
fn read_label<'a>(reader: &mut Reader<'a>) -> Result<(Label, &'a [u8]), Refusal> {
    let start = reader.at;
    let label = match number(reader.take(2)?) {
        C_TAG => {
            let vlan = number(reader.take(2)?) as u32 & 0xFFF;
            Label::vlan(vlan)
        }
        FINE_TAG => {
            let high = number(reader.take(2)?) as u32 & 0xFFF;
            if number(reader.take(2)?) != FINE_TAG {
                return Err(Refusal::Label);
            }
            let low = number(reader.take(2)?) as u32 & 0xFFF;
            Label::fine((high << 12) | low)
        }
        _ => None,
    };
    // 10: "label Ethertype or VLAN number not allowed"
    match label {
        Some(label) => Ok((label, reader.since(start))),
        None => Err(Refusal::Label),
    }
}

/// "Content is at least 2 bytes, its Ethertype first."
fn fields<'a>(
    reader: &mut Reader<'a>,
    header: &'a [u8],
    addresses: &'a [u8],
    label: Label,
    label_bytes: &'a [u8],
) -> Result<Fields<'a>, Refusal> {
    let start = reader.at;
    reader.take(2)?;
    let content = reader.frame.get(start..).unwrap_or_default();
    // The first six bytes of the header are there; the options behind them are not read.
    let bits = number(header.get(..6).unwrap_or_default());
    let (destination, source) = addresses.split_at(addresses.len() / 2);
    Ok(Fields {
        header,
        multicast: (bits >> 43) & 1 == 1,
        hop_count: (bits >> 32) as u8 & 0x3F,
        egress: (bits >> 16) as u16,
        ingress: bits as u16,
        addresses,
        inner_destination: number(destination),
        inner_source: number(source),
        label_bytes,
        label,
        content,
    })
}
