//! Why did this address go? Document 02, 2026-08.

use super::answer::{word, Pack};
use super::flush::{is_done, take, take_byte, take_tlv, tlv_alone, vlan_block, Meant};
use super::number;
use super::record::{read, Entry, Record, RECORD};
use super::refusal::Refusal;
use super::table::check_length;

/// "say the reason: free, spoilt, configured, nickname not meant, label not meant, MAC not meant, or cleared;
/// the first that applies in that order"
enum Reason {
    Free,
    Spoilt,
    Configured,
    NicknameNotMeant,
    LabelNotMeant,
    MacNotMeant,
    Cleared(Places),
}

/// "For "cleared" name the first listed nickname that matches (or "sender"), the first TLV or VLAN block that
/// brings the label, and the first TLV that brings the MAC (or "every MAC")"
struct Places {
    /// None is "sender".
    nickname: Option<usize>,
    label: LabelPlace,
    /// None is "every MAC".
    mac: Option<usize>,
}

#[derive(Clone, Copy)]
enum LabelPlace {
    Block(usize),
    Tlv(usize),
}

/// "a place over 4,194,303 shows as that"
fn shown(place: usize) -> u64 {
    (place as u64).min(4_194_303)
}

impl Pack for Reason {
    fn pack(&self) -> u64 {
        match self {
            Reason::Free => 64,
            Reason::Spoilt => 65,
            Reason::Configured => 66,
            Reason::NicknameNotMeant => 67,
            Reason::LabelNotMeant => 68,
            Reason::MacNotMeant => 69,
            Reason::Cleared(places) => {
                // "8..15 nickname place (0 with sender), 16 sender"
                let nickname = match places.nickname {
                    Some(place) => shown(place) << 8,
                    None => 1 << 16,
                };
                // "17 the label's place counts TLVs (0: VLAN blocks), 18..39 label place"
                let label = match places.label {
                    LabelPlace::Block(place) => shown(place) << 18,
                    LabelPlace::Tlv(place) => (1 << 17) | (shown(place) << 18),
                };
                // "40..61 MAC place (0 with every MAC), 63 every MAC"
                let mac = match places.mac {
                    Some(place) => shown(place) << 40,
                    None => 1 << 63,
                };
                70 | nickname | label | mac
            }
        }
    }
}

/// A payload in its pieces, in the order in which they stand. "places count from 0 among the nicknames, the
/// VLAN blocks or all TLVs, skipped ones too".
struct Pieces<'a> {
    nicknames: Vec<u32>,
    blocks: Vec<&'a [u8]>,
    /// Type and value; each keeps the rule of its length.
    tlvs: Vec<(u8, &'a [u8])>,
}

impl Pieces<'_> {
    /// The place of the first block whose meaning is such.
    fn block(&self, such: impl Fn(&Meant) -> bool) -> Option<usize> {
        self.blocks
            .iter()
            .position(|block| such(&vlan_block(block)))
    }

    /// The place of the first TLV whose meaning, of it alone, is such.
    fn tlv(&self, such: impl Fn(&Meant) -> bool) -> Option<usize> {
        let meant = |(kind, value): &(u8, &[u8])| tlv_alone(*kind, value).is_ok_and(|it| such(&it));
        self.tlvs.iter().position(meant)
    }
}

/// "Payload: K-nicks (1 byte), that many 2-byte nicknames, K-VLBs (1 byte)." "K-VLBs above 0: that many blocks
/// [..]; bytes after them are ignored." "K-VLBs 0: TLVs to the end".
fn read_pieces(payload: &[u8]) -> Result<Pieces<'_>, Refusal> {
    let mut rest = payload;
    let count = usize::from(take_byte(&mut rest)?);
    let listed = take(&mut rest, 2 * count)?;
    let nicknames = listed.chunks_exact(2).map(|n| number(n) as u32).collect();
    let count = usize::from(take_byte(&mut rest)?);
    let (mut blocks, mut tlvs) = (Vec::new(), Vec::new());
    if count > 0 {
        blocks.extend(take(&mut rest, 4 * count)?.chunks_exact(4));
    } else {
        while !is_done(rest) {
            let (kind, value) = take_tlv(&mut rest)?;
            tlv_alone(kind, value)?;
            tlvs.push((kind, value));
        }
    }
    Ok(Pieces {
        nicknames,
        blocks,
        tlvs,
    })
}

fn reason(ingress: u32, pieces: &Pieces, entry: &Entry) -> Reason {
    // "K-nicks 0 means the header's ingress nickname; otherwise only the listed ones."
    let own = u32::from(entry.nickname);
    let nickname = match pieces.nicknames.iter().position(|listed| *listed == own) {
        Some(place) => Some(place),
        None if pieces.nicknames.is_empty() && ingress == own => None,
        None => return Reason::NicknameNotMeant,
    };
    // "With type 6 every label is meant": type 6 brings every label.
    let brings = |piece: &Meant| piece.has_label(entry.label);
    let block = pieces.block(brings).map(LabelPlace::Block);
    let tlv = pieces.tlv(brings).map(LabelPlace::Tlv);
    let Some(label) = block.or(tlv) else {
        return Reason::LabelNotMeant;
    };
    // "If no MAC was gathered, every MAC is meant." Of blocks "All MACs are meant."
    let gathered = pieces.tlv(Meant::gathers_mac).is_some();
    let mac = match pieces.tlv(|tlv| tlv.names_mac(entry.mac)) {
        None if gathered => return Reason::MacNotMeant,
        place => place,
    };
    Reason::Cleared(Places {
        nickname,
        label,
        mac,
    })
}

/// The call: "Refusals: 2, 24, 15."
pub fn why(ingress: u32, payload: &[u8], slot: u64, table: &[u8]) -> u64 {
    let outcome = check_length(table).and_then(|()| {
        // 24: "the slot number is n or more"
        let mut slots = table.chunks_exact(RECORD);
        let at = usize::try_from(slot).ok();
        let own = at.and_then(|at| slots.nth(at));
        let own = own.ok_or(Refusal::Portion)?;
        let pieces = read_pieces(payload)?;
        Ok(match read(own) {
            Record::Free => Reason::Free,
            Record::Spoilt => Reason::Spoilt,
            Record::Configured(_) => Reason::Configured,
            Record::Learned(entry) => reason(ingress, &pieces, &entry),
        })
    });
    word(outcome)
}
