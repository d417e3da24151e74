//! The fields of a frame, General or Compact, with the refusals in their order.

use super::record::{label_good, FINE};
use super::refusal;

const TRILL: u16 = 0x22F3;
pub const C_TAG: u16 = 0x8100;
const FINE_TAG: u16 = 0x893B;

/// 01-80-C2-00-00-40
pub const ALL_RBRIDGES: u64 = 0x0180_C200_0040;

/// 01-80-C2-00-00-40 to 4F
pub fn is_trill_group(address: u64) -> bool {
    address & !0xF == ALL_RBRIDGES
}

/// 01-80-C2-00-00-00 to 0F, 21, and 40 to 4F: they stand in front of no Compact frame. One test where the upper bytes differ.
#[inline(always)]
pub fn is_reserved(address: u64) -> bool {
    address >> 8 == ALL_RBRIDGES >> 8 && matches!(address as u8, 0x00..=0x0F | 0x21 | 0x40..=0x4F)
}

pub fn length_good(length: usize) -> bool {
    (14..=9216).contains(&length)
}

/// The number of the two bytes at a place.
#[inline(always)]
pub fn two(frame: &[u8], at: usize) -> Result<u16, u64> {
    match frame.get(at..at + 2) {
        Some(bytes) => Ok(u16::from_be_bytes([bytes[0], bytes[1]])),
        None => Err(refusal::CUT),
    }
}

/// The number of the six bytes at a place.
#[inline(always)]
pub fn six(frame: &[u8], at: usize) -> Result<u64, u64> {
    match frame.get(at..at + 6) {
        Some(bytes) => {
            let high = u32::from_be_bytes([bytes[0], bytes[1], bytes[2], bytes[3]]);
            let low = u16::from_be_bytes([bytes[4], bytes[5]]);
            Ok(u64::from(high) << 16 | u64::from(low))
        }
        None => Err(refusal::CUT),
    }
}

/// What the destination in front says, before Compact on or off is looked at.
pub enum Front {
    General,
    Compact,
    /// 01-80-C2-00-00-00 to 0F, 21, and 41 to 4F
    Reserved,
}

impl Front {
    #[inline(always)]
    pub fn new(destination: u64, port: u64) -> Front {
        if destination == port || destination == ALL_RBRIDGES {
            Front::General
        } else if is_reserved(destination) {
            Front::Reserved
        } else {
            Front::Compact
        }
    }
}

/// The places of a frame's fields, and those values that the calls look at.
pub struct Fields {
    pub header_at: usize,
    /// Where the options end.
    pub header_end: usize,
    pub addresses_at: usize,
    pub inner_destination: u64,
    pub inner_source: u64,
    /// The label with its kind.
    pub label: u32,
    pub content_at: usize,
    pub multicast: bool,
    pub hop_count: u8,
    pub egress: u16,
    pub ingress: u16,
}

struct Header {
    bits: u64,
    end: usize,
}

impl Header {
    fn multicast(&self) -> bool {
        self.bits >> 43 & 1 != 0
    }
}

/// `general` is the destination in front of a General frame.
#[inline(always)]
fn header(frame: &[u8], at: usize, general: Option<u64>) -> Result<Header, u64> {
    let bits = six(frame, at)?;
    let options = (bits >> 38 & 0x1F) as usize;
    let header = Header {
        bits,
        end: at + 6 + 4 * options,
    };
    if bits >> 46 != 0 {
        return Err(refusal::VERSION);
    }
    if general.is_some_and(|to| (to == ALL_RBRIDGES) != header.multicast()) {
        return Err(refusal::MULTICAST);
    }
    if header.end > frame.len() {
        return Err(refusal::CUT);
    }
    Ok(header)
}

/// The label with its kind, and its end.
#[inline(always)]
fn label(frame: &[u8], at: usize) -> Result<(u32, usize), u64> {
    let number = |at| two(frame, at).map(|bits| u32::from(bits) & 0xFFF);
    match two(frame, at)? {
        C_TAG => {
            let label = number(at + 2)?;
            if !label_good(label) {
                return Err(refusal::LABEL);
            }
            Ok((label, at + 4))
        }
        FINE_TAG => {
            let high = number(at + 2)?;
            if two(frame, at + 4)? != FINE_TAG {
                return Err(refusal::LABEL);
            }
            let low = number(at + 6)?;
            Ok((FINE | high << 12 | low, at + 8))
        }
        _ => Err(refusal::LABEL),
    }
}

#[inline(always)]
fn content(frame: &[u8], at: usize) -> Result<usize, u64> {
    two(frame, at).map(|_| at)
}

impl Fields {
    /// Reads a frame of at least 14 bytes that starts with this destination.
    #[inline(always)]
    pub fn general(frame: &[u8], destination: u64) -> Result<Fields, u64> {
        let mut at = 12;
        let mut ethertype = two(frame, at)?;
        if ethertype == C_TAG {
            two(frame, at + 2)?;
            at += 4;
            ethertype = two(frame, at)?;
        }
        if ethertype != TRILL {
            return Err(refusal::NOT_TRILL);
        }
        let header_at = at + 2;
        let header = header(frame, header_at, Some(destination))?;
        let addresses_at = header.end;
        let inner_destination = six(frame, addresses_at)?;
        let inner_source = six(frame, addresses_at + 6)?;
        let label_at = addresses_at + 12;
        let (label, label_end) = label(frame, label_at)?;
        let content_at = content(frame, label_end)?;
        Ok(Fields {
            header_at,
            header_end: header.end,
            addresses_at,
            inner_destination,
            inner_source,
            label,
            content_at,
            multicast: header.multicast(),
            hop_count: (header.bits >> 32) as u8 & 0x3F,
            egress: (header.bits >> 16) as u16,
            ingress: header.bits as u16,
        })
    }

    /// Reads a frame of at least 14 bytes.
    #[inline(always)]
    pub fn compact(frame: &[u8]) -> Result<Fields, u64> {
        let inner_destination = six(frame, 0)?;
        let inner_source = six(frame, 6)?;
        let label_at = 12;
        let (label, label_end) = label(frame, label_at)?;
        if two(frame, label_end)? != TRILL {
            return Err(refusal::NOT_TRILL);
        }
        let header_at = label_end + 2;
        let header = header(frame, header_at, None)?;
        let content_at = content(frame, header.end)?;
        Ok(Fields {
            header_at,
            header_end: header.end,
            addresses_at: 0,
            inner_destination,
            inner_source,
            label,
            content_at,
            multicast: header.multicast(),
            hop_count: (header.bits >> 32) as u8 & 0x3F,
            egress: (header.bits >> 16) as u16,
            ingress: header.bits as u16,
        })
    }
}
