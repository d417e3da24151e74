//! Address Flush: the whole payload is read before any record is touched.

use super::answer::{word, Flushed};
use super::number;
use super::record::{read, Entry, Label, Record, RECORD};
use super::refusal::Refusal;
use super::table::check_length;

/// What a payload means: three sets. A record is cleared if it is in all three.
#[derive(Default)]
pub(super) struct Meant {
    nicknames: Vec<u32>,
    /// Type 6 was there.
    every_label: bool,
    /// First and last VLAN of each part. No part is empty.
    vlans: Vec<(u32, u32)>,
    /// First and last fine-grained label of each part. No part is empty.
    fine: Vec<(u32, u32)>,
    /// First and last MAC of each part. No part is empty.
    macs: Vec<(u64, u64)>,
}

impl Meant {
    pub(super) fn has(&self, entry: &Entry) -> bool {
        let nickname = self.nicknames.contains(&u32::from(entry.nickname));
        // "If no MAC was gathered, every MAC is meant."
        let mac = !self.gathers_mac() || self.names_mac(entry.mac);
        nickname && self.has_label(entry.label) && mac
    }

    /// "With type 6 every label is meant." "No label gathered and no type 6: nothing is cleared."
    /// "Overlaps unite."
    pub(super) fn has_label(&self, label: Label) -> bool {
        self.every_label
            || match label {
                Label::Vlan(vlan) => is_in(&self.vlans, u32::from(vlan)),
                Label::Fine(fine) => is_in(&self.fine, fine),
            }
    }

    pub(super) fn gathers_mac(&self) -> bool {
        !self.macs.is_empty()
    }

    pub(super) fn names_mac(&self, mac: u64) -> bool {
        is_in(&self.macs, mac)
    }
}

/// "Both ends belong to a block."
fn is_in<N: PartialOrd>(parts: &[(N, N)], number: N) -> bool {
    parts
        .iter()
        .any(|(first, last)| *first <= number && number <= *last)
}

/// "an end below its start empties it"
fn gather<N: PartialOrd>(parts: &mut Vec<(N, N)>, start: N, end: N) {
    if start <= end {
        parts.push((start, end));
    }
}

/// Takes so many bytes off the front. "a missing K byte, or a cut list or block is 15", and so are
/// "a TLV past the end" and "a lone last byte".
pub(super) fn take<'a>(rest: &mut &'a [u8], count: usize) -> Result<&'a [u8], Refusal> {
    if count > rest.len() {
        return Err(Refusal::Payload);
    }
    let (taken, behind) = rest.split_at(count);
    *rest = behind;
    Ok(taken)
}

pub(super) fn take_byte(rest: &mut &[u8]) -> Result<u8, Refusal> {
    Ok(number(take(rest, 1)?) as u8)
}

/// "Payload: K-nicks (1 byte), that many 2-byte nicknames, K-VLBs (1 byte)."
pub(super) fn read_payload(ingress: u32, payload: &[u8]) -> Result<Meant, Refusal> {
    read_payload_of(|_| true, ingress, payload)
}

/// The same of a box that implements these types; others are "skipped by length (house rule)".
pub(super) fn read_payload_of(
    implements: fn(u8) -> bool,
    ingress: u32,
    payload: &[u8],
) -> Result<Meant, Refusal> {
    let mut rest = payload;
    let mut meant = Meant::default();

    let nicknames = usize::from(take_byte(&mut rest)?);
    // "K-nicks 0 means the header's ingress nickname; otherwise only the listed ones."
    if nicknames == 0 {
        meant.nicknames.push(ingress);
    }
    for nickname in take(&mut rest, 2 * nicknames)?.chunks_exact(2) {
        meant.nicknames.push(number(nickname) as u32);
    }

    let blocks = usize::from(take_byte(&mut rest)?);
    if blocks > 0 {
        // "K-VLBs above 0: that many blocks [..]; bytes after them are ignored. [..] All MACs are
        // meant."
        vlan_blocks(&mut meant, take(&mut rest, 4 * blocks)?);
    } else {
        // "K-VLBs 0: TLVs to the end, type 1 byte, length 1 byte."
        while !is_done(rest) {
            let (kind, value) = take_tlv(&mut rest)?;
            if implements(kind) {
                read_value(&mut meant, kind, value)?;
            }
        }
    }
    Ok(meant)
}

/// Document 02, 2026-02: "a lone last byte of zero is padding; any other stays 15".
pub(super) fn is_done(rest: &[u8]) -> bool {
    rest.is_empty() || rest == [0]
}

/// "type 1 byte, length 1 byte", and the value.
pub(super) fn take_tlv<'a>(rest: &mut &'a [u8]) -> Result<(u8, &'a [u8]), Refusal> {
    let kind = take_byte(rest)?;
    let length = usize::from(take_byte(rest)?);
    Ok((kind, take(rest, length)?))
}

/// What one TLV alone means.
pub(super) fn tlv_alone(kind: u8, value: &[u8]) -> Result<Meant, Refusal> {
    let mut meant = Meant::default();
    read_value(&mut meant, kind, value)?;
    Ok(meant)
}

/// What one VLAN block alone means.
pub(super) fn vlan_block(block: &[u8]) -> Meant {
    let mut meant = Meant::default();
    vlan_blocks(&mut meant, block);
    meant
}

/// "4 reserved bits, start VLAN 12, 4 reserved, end VLAN 12". "Start 0 reads as 1, end FFF as FFE;
/// end below start is an empty block."
fn vlan_blocks(meant: &mut Meant, blocks: &[u8]) {
    for block in blocks.chunks_exact(4) {
        let (start, end) = block.split_at(2);
        let start = match number(start) as u32 & 0xFFF {
            0 => 1,
            start => start,
        };
        let end = match number(end) as u32 & 0xFFF {
            0xFFF => 0xFFE,
            end => end,
        };
        gather(&mut meant.vlans, start, end);
    }
}

/// The numbers of the bits set in a bit map: "A map's high bit is its start, even 0".
fn map_numbers(start: u32, map: &[u8]) -> impl Iterator<Item = u32> + '_ {
    (start..)
        .zip(
            map.iter()
                .flat_map(|byte| (0..8).map(move |bit| byte << bit)),
        )
        .filter(|(_, bits)| bits & 0x80 != 0)
        .map(|(number, _)| number)
}

/// "A broken length rule [..] is 15."
fn length_rule(holds: bool) -> Result<(), Refusal> {
    if holds {
        Ok(())
    } else {
        Err(Refusal::Payload)
    }
}

fn read_value(meant: &mut Meant, kind: u8, value: &[u8]) -> Result<(), Refusal> {
    let length = value.len();
    match kind {
        // "1: VLAN blocks as above, multiple of 4"
        1 => {
            length_rule(length.is_multiple_of(4))?;
            vlan_blocks(meant, value);
        }
        // "2: 4 reserved bits, start VLAN 12, bit map, at least 2"
        2 => {
            length_rule(length >= 2)?;
            let (start, map) = value.split_at(2);
            for vlan in map_numbers(number(start) as u32 & 0xFFF, map) {
                // "bits for VLAN 0 and past FFE or FFFFFF are ignored"
                if (0x001..=0xFFE).contains(&vlan) {
                    gather(&mut meant.vlans, vlan, vlan);
                }
            }
        }
        // "3: blocks, start and end of 3 bytes, multiple of 6"
        3 => {
            length_rule(length.is_multiple_of(6))?;
            for block in value.chunks_exact(6) {
                let (start, end) = block.split_at(3);
                gather(&mut meant.fine, number(start) as u32, number(end) as u32);
            }
        }
        // "4: fine-grained labels of 3 bytes, multiple of 3"
        4 => {
            length_rule(length.is_multiple_of(3))?;
            for label in value.chunks_exact(3) {
                let label = number(label) as u32;
                gather(&mut meant.fine, label, label);
            }
        }
        // "5: start of 3 bytes, bit map, at least 3"
        5 => {
            length_rule(length >= 3)?;
            let (start, map) = value.split_at(3);
            for label in map_numbers(number(start) as u32, map) {
                if label <= 0xFF_FFFF {
                    gather(&mut meant.fine, label, label);
                }
            }
        }
        // "6: all labels, 0"
        6 => {
            length_rule(length == 0)?;
            meant.every_label = true;
        }
        // "7: MACs of 6 bytes, multiple of 6"
        7 => {
            length_rule(length.is_multiple_of(6))?;
            for mac in value.chunks_exact(6) {
                let mac = number(mac);
                gather(&mut meant.macs, mac, mac);
            }
        }
        // "8: MAC blocks, start and end, multiple of 12"
        8 => {
            length_rule(length.is_multiple_of(12))?;
            for block in value.chunks_exact(12) {
                let (start, end) = block.split_at(6);
                gather(&mut meant.macs, number(start), number(end));
            }
        }
        // "Other types are skipped by length (house rule)."
        _ => {}
    }
    Ok(())
}

/// "A cleared record becomes free; the answer counts them." Only learned records are cleared.
pub fn clear(ingress: u32, payload: &[u8], table: &mut [u8]) -> Result<Flushed, Refusal> {
    let meant = read_payload(ingress, payload)?;
    let mut cleared = 0;
    for slot in table.chunks_exact_mut(RECORD) {
        if let Record::Learned(entry) = read(slot) {
            if meant.has(&entry) {
                slot.fill(0);
                cleared += 1;
            }
        }
    }
    Ok(Flushed(cleared))
}

/// The flush call: 2, then 15. An ingress outside 0001 to FFBF matches no record.
pub fn flush(ingress: u32, payload: &[u8], table: &mut [u8]) -> u64 {
    word(check_length(table).and_then(|()| clear(ingress, payload, table)))
}
