//! Ingress: a native frame becomes a General frame (document 02, 2026-01).

use super::answer::{word, Written};
use super::frame::{check_length, ALL_RBRIDGES, C_TAG, FINE_TAG, TRILL};
use super::map::{CampusLabel, Map, PortVlan};
use super::refusal::Refusal;
use super::settings::{check_outer_source, Settings};
use super::{address_bytes, is_group, is_nickname, number};

/// "the outer addresses, M, hop count and nicknames the caller gives", as the C boundary passes them:
/// any numbers.
#[derive(Clone, Copy, Debug, PartialEq, Eq)]
pub struct Encapsulation {
    pub outer_destination: u64,
    pub outer_source: u64,
    pub m: u32,
    pub hop_count: u32,
    pub egress: u32,
    pub ingress: u32,
}

/// What a native frame holds.
struct Native<'a> {
    /// Inner destination and inner source, 12 bytes.
    addresses: &'a [u8],
    source: u64,
    priority: u16,
    vlan: PortVlan,
    content: &'a [u8],
}

/// "Inbound, a native frame tagged with a mapped VLAN becomes a General frame without outer tag, with
/// the label and the outer addresses, M, hop count and nicknames the caller gives". The settings are
/// the six of the C boundary.
pub fn ingress(
    settings: &Settings,
    map: &[u8],
    given: &Encapsulation,
    frame: &[u8],
    out: &mut [u8],
) -> u64 {
    word(ingressed(&settings.six(), map, given, frame, out))
}

/// "Ingress order: 1 (also a group outer source), 21, 3 (frame, then result), 6 and 10 (also
/// untagged) from left to right, 11, 8 (0 or over 63), 9 (range only), 12 (also M 0 with a group outer
/// destination), 22, 16."
fn ingressed(
    settings: &Settings,
    map: &[u8],
    given: &Encapsulation,
    frame: &[u8],
    out: &mut [u8],
) -> Result<Written, Refusal> {
    settings.check()?;
    let outer_source = check_outer_source(given.outer_source)?;
    // An outer address of 2^48 or more is no address, and M is 0 or 1.
    if given.outer_destination >> 48 != 0 || given.m > 1 {
        return Err(Refusal::Settings);
    }
    let map = Map::check(map)?;
    // "3 (frame, then result)": outer addresses, 22F3, header and four bytes more of label.
    check_length(frame.len())?;
    check_length(frame.len() + 24)?;
    let native = read_native(frame)?;
    // 11: "inner source is a group address"
    if is_group(native.source) {
        return Err(Refusal::GroupSource);
    }
    if !(1..=63).contains(&given.hop_count) {
        return Err(Refusal::HopCount);
    }
    if !is_nickname(u64::from(given.egress)) || !is_nickname(u64::from(given.ingress)) {
        return Err(Refusal::Nickname);
    }
    // "A General frame has the :40 address exactly if M is 1"; "also M 0 with a group outer destination"
    let agree = match given.m {
        1 => given.outer_destination == ALL_RBRIDGES,
        _ => !is_group(given.outer_destination),
    };
    if !agree {
        return Err(Refusal::Multicast);
    }
    let label = map.label_of(native.vlan)?;
    let result = [
        &address_bytes(given.outer_destination),
        &address_bytes(outer_source),
        two_bytes(TRILL).as_slice(),
        &header(given),
        native.addresses,
        &label_bytes(label, native.priority),
        native.content,
    ]
    .concat();
    match out.get_mut(..result.len()) {
        Some(start) => start.copy_from_slice(&result),
        None => return Err(Refusal::OutputLength),
    }
    Ok(Written(result.len()))
}

/// A native frame: addresses, an 8100 tag, content. "6 and 10 (also untagged) from left to right", "a
/// tag's Ethertype and its other two bytes being two fields". The frame has 14 bytes.
fn read_native(frame: &[u8]) -> Result<Native<'_>, Refusal> {
    let (addresses, rest) = frame.split_at(12);
    let (ethertype, rest) = rest.split_at(2);
    if number(ethertype) != C_TAG {
        return Err(Refusal::Label);
    }
    let [high, low, content @ ..] = rest else {
        return Err(Refusal::Cut);
    };
    let tag = u16::from_be_bytes([*high, *low]);
    let vlan = tag & 0xFFF;
    if vlan == 0x000 || vlan == 0xFFF {
        return Err(Refusal::Label);
    }
    // "content under 2 bytes"
    if content.len() < 2 {
        return Err(Refusal::Cut);
    }
    Ok(Native {
        addresses,
        source: number(&addresses[6..]),
        priority: tag >> 13,
        vlan: PortVlan(vlan),
        content,
    })
}

fn two_bytes(number: u64) -> [u8; 2] {
    (number as u16).to_be_bytes()
}

/// "DEI, V, R and Op-Length are 0."
fn header(given: &Encapsulation) -> Vec<u8> {
    let first = given.m << 11 | given.hop_count;
    [first, given.egress, given.ingress]
        .map(|part| two_bytes(u64::from(part)))
        .concat()
}

/// "the native priority goes into both label parts"
fn label_bytes(CampusLabel(label): CampusLabel, priority: u16) -> Vec<u8> {
    let part = |bits: u32| u64::from(priority) << 13 | u64::from(bits & 0xFFF);
    [FINE_TAG, part(label >> 12), FINE_TAG, part(label)]
        .map(two_bytes)
        .concat()
}

#[cfg(test)]
mod tests {
    use super::super::receive_port;
    use super::*;
    use crate::reference::RECORD;

    const FAR: Settings = Settings {
        port: 0x0200_0000_00A1,
        inner: 0x0200_0000_00B1,
        nickname: 0x0102,
        compact: 1,
        confidence: 20,
        seconds: 0,
        multihomed: 0,
        smart: 0,
    };
    const GIVEN: Encapsulation = Encapsulation {
        outer_destination: 0x0200_0000_00A1,
        outer_source: 0x0200_0000_00B2,
        m: 0,
        hop_count: 5,
        egress: 0x0102,
        ingress: 0x1234,
    };
    const MAP: [u8; 6] = [0x00, 0x0A, 0x00, 0xAB, 0xCD, 0xEF];

    fn bytes(hex: &str) -> Vec<u8> {
        let digits: Vec<u8> = hex.bytes().filter(|byte| *byte != b' ').collect();
        let byte = |two: &[u8]| {
            let text = std::str::from_utf8(two).expect("digits");
            u8::from_str_radix(text, 16).expect("a byte")
        };
        digits.chunks(2).map(byte).collect()
    }

    fn native() -> Vec<u8> {
        bytes("02000000000D 020000000001 8100600A 08004500")
    }

    fn general() -> Vec<u8> {
        bytes(
            "0200000000A1 0200000000B2 22F3 0005 0102 1234 02000000000D 020000000001 893B6ABC \
             893B6DEF 08004500",
        )
    }

    fn made(frame: &[u8]) -> (u64, [u8; 46]) {
        let mut out = [0xEE; 46];
        (ingress(&FAR, &MAP, &GIVEN, frame, &mut out), out)
    }

    #[test]
    fn a_native_frame_goes_in_and_comes_out_as_it_was() {
        let (word, out) = made(&native());
        assert_eq!((word, &out[..44]), (0x2C40, &general()[..]));
        assert_eq!(out[44..], [0xEE; 2]);
        let (mut table, mut back) = ([0; RECORD], [0xEE; 22]);
        let word = receive_port(&FAR, &MAP, &general(), &mut table, &mut back);
        assert_eq!((word, &back[..20]), (0xABCD_EF01_0000_1441, &native()[..]));
        assert_eq!(back[20..], [0xEE; 2]);
    }

    #[test]
    fn dei_is_sent_as_0() {
        let mut marked = native();
        marked[14] = 0x70;
        assert_eq!(made(&marked), made(&native()));
    }

    #[test]
    fn a_native_frame_that_is_cut_or_untagged_is_refused() {
        for (length, word) in [(13, 3), (14, 6), (15, 6), (16, 6), (17, 6), (18, 0x2A40)] {
            assert_eq!(made(&native()[..length]).0, word, "{length}");
        }
        let mut untagged = native();
        untagged.drain(12..16);
        assert_eq!(made(&untagged).0, 10);
    }
}
