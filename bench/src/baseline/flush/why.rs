//! Why a flush clears a record: the payload is judged as for a flush, then searched for the nickname, the label and the MAC of
//! one record.

use std::slice;

use super::super::record::{is_free, slots, Bits, CONFIGURED, FINE, LEARNED};
use super::super::refusal;
use super::macs::{names_in_blocks, six};
use super::payload::{
    Payload, ALL_LABELS, FINE_BLOCKS, FINE_LIST, FINE_MAP, MAC_BLOCKS, MAC_LIST, VLAN_BLOCKS,
    VLAN_MAP,
};

const FREE: u64 = 64;
const SPOILT: u64 = 65;
const IS_CONFIGURED: u64 = 66;
const NICKNAME: u64 = 67;
const LABEL: u64 = 68;
const MAC: u64 = 69;
const CLEARED: u64 = 70;
const SENDER: u64 = 1 << 16;
const BY_TLV: u64 = 1 << 17;
const EVERY_MAC: u64 = 1 << 63;
const PLACE_MAX: usize = 4_194_303;

#[inline(never)]
pub unsafe extern "C" fn why(
    ingress: u32,
    payload: *const u8,
    payload_len: usize,
    slot: u64,
    table: *const u8,
    table_len: usize,
) -> u64 {
    let Some(slots) = slots(table, table_len) else {
        return refusal::TABLE_LENGTH;
    };
    if slot >= slots.len() as u64 {
        return refusal::PORTION;
    }
    let own = &slots[slot as usize];
    let Some(payload) = Payload::judged(slice::from_raw_parts(payload, payload_len)) else {
        return refusal::PAYLOAD;
    };
    let bits = Bits::of(own);
    match bits.state() {
        LEARNED if bits.entry_good() => reason(ingress, &payload, bits),
        CONFIGURED if bits.entry_good() => IS_CONFIGURED,
        _ if is_free(own) => FREE,
        _ => SPOILT,
    }
}

#[inline(always)]
fn reason(ingress: u32, payload: &Payload, bits: Bits) -> u64 {
    let nickname = match payload.nicknames {
        [] if ingress == u32::from(bits.nickname()) => SENDER,
        [] => return NICKNAME,
        listed => {
            let own = bits.nickname().to_be_bytes();
            match listed.iter().position(|nickname| *nickname == own) {
                Some(place) => (place as u64) << 8,
                None => return NICKNAME,
            }
        }
    };
    let label = bits.label();
    if !payload.blocks.is_empty() {
        let mut blocks = payload.blocks.as_chunks().0.iter();
        return match blocks.position(|block| label < FINE && in_block(block, label)) {
            Some(place) => CLEARED | nickname | (place as u64) << 18 | EVERY_MAC,
            None => LABEL,
        };
    }
    let Some(place) = label_place(payload, label) else {
        return LABEL;
    };
    let label = BY_TLV | shown(place) << 18;
    if !payload.has(&[MAC_LIST]) && !names_in_blocks(payload) {
        return CLEARED | nickname | label | EVERY_MAC;
    }
    match mac_place(payload, bits.mac()) {
        Some(place) => CLEARED | nickname | label | shown(place) << 40,
        None => MAC,
    }
}

fn shown(place: usize) -> u64 {
    place.min(PLACE_MAX) as u64
}

/// Start 0 and end FFF need no care: no label is 0 or FFF.
#[inline(always)]
fn in_block(block: &[u8; 4], vlan: u32) -> bool {
    let block = u32::from_be_bytes(*block);
    (block >> 16 & 0xFFF) <= vlan && vlan <= (block & 0xFFF)
}

#[inline(always)]
fn label_place(payload: &Payload, label: u32) -> Option<usize> {
    let every = payload.has(&[ALL_LABELS]);
    if label >= FINE {
        let label = label - FINE;
        if !every && !payload.has(&[FINE_BLOCKS, FINE_LIST, FINE_MAP]) {
            return None;
        }
        payload.place(every, |kind, value| match kind {
            FINE_BLOCKS => value.as_chunks::<6>().0.iter().any(|block| {
                let block = six(block);
                (block >> 24) as u32 <= label && label <= block as u32 & 0xFF_FFFF
            }),
            FINE_LIST => has_label(value, label),
            FINE_MAP => {
                let start = u32::from_be_bytes([0, value[0], value[1], value[2]]);
                in_map(&value[3..], label.wrapping_sub(start))
            }
            _ => false,
        })
    } else {
        if !every && !payload.has(&[VLAN_BLOCKS, VLAN_MAP]) {
            return None;
        }
        payload.place(every, |kind, value| match kind {
            VLAN_BLOCKS => {
                let blocks = value.as_chunks().0;
                blocks
                    .iter()
                    .fold(false, |met, block| met | in_block(block, label))
            }
            VLAN_MAP => {
                let start = u32::from(u16::from_be_bytes([value[0], value[1]]) & 0xFFF);
                in_map(&value[2..], label.wrapping_sub(start))
            }
            _ => false,
        })
    }
}

#[inline(always)]
fn mac_place(payload: &Payload, mac: u64) -> Option<usize> {
    payload.place(false, |kind, value| match kind {
        MAC_LIST => has_mac(value, mac),
        MAC_BLOCKS => {
            let blocks = value.as_chunks().0.as_chunks().0;
            blocks
                .iter()
                .any(|[start, end]| six(start) <= mac && mac <= six(end))
        }
        _ => false,
    })
}

/// The bit of a map at a distance from its start, which is past the end for numbers below the start.
#[inline(always)]
fn in_map(map: &[u8], distance: u32) -> bool {
    let byte = map.get((distance / 8) as usize);
    byte.is_some_and(|byte| byte << (distance & 7) & 0x80 != 0)
}

/// Whether a value of labels has one. Each is compared by a load of four bytes, of which the last is not its own, and none is
/// branched on; the last label has no byte after it.
#[inline(always)]
fn has_label(value: &[u8], label: u32) -> bool {
    let [_, first, second, third] = label.to_be_bytes();
    let own = u32::from_le_bytes([first, second, third, 0]);
    let mut met = value.ends_with(&[first, second, third]);
    for bytes in value.windows(4).step_by(3) {
        let bytes: [u8; 4] = bytes.try_into().expect("four bytes");
        met |= u32::from_le_bytes(bytes) & 0xFF_FFFF == own;
    }
    met
}

/// The same of MACs, by loads of eight bytes.
#[inline(always)]
fn has_mac(value: &[u8], mac: u64) -> bool {
    let [_, _, bytes @ ..] = mac.to_be_bytes();
    let own = (mac << 16).swap_bytes();
    let mut met = value.ends_with(&bytes);
    for bytes in value.windows(8).step_by(6) {
        let bytes: [u8; 8] = bytes.try_into().expect("eight bytes");
        met |= u64::from_le_bytes(bytes) << 16 == own << 16;
    }
    met
}
