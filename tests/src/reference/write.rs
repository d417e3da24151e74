//! Writing an Address Flush, from document 02, request 2026-03.

use super::number;
use super::refusal::Refusal;

/// "Lists are at most 255 nicknames and 255 blocks of each kind."
const MOST: usize = 255;

/// A block: its start and its end, both included.
pub type Block = (u64, u64);

/// "Given nicknames, label blocks and MAC blocks"
#[derive(Clone, Debug, Default, PartialEq, Eq)]
pub struct Lists {
    pub nicknames: Vec<u64>,
    pub vlans: Vec<Block>,
    pub fine: Vec<Block>,
    pub macs: Vec<Block>,
}

impl Lists {
    /// The lists of four areas: nicknames of 2 bytes, blocks of 2 + 2, 4 + 4 and 8 + 8. None where an
    /// area is no whole number of items.
    pub fn of(nicknames: &[u8], vlans: &[u8], fine: &[u8], macs: &[u8]) -> Option<Lists> {
        Some(Lists {
            nicknames: items(2, nicknames)?,
            vlans: blocks(2, vlans)?,
            fine: blocks(4, fine)?,
            macs: blocks(8, macs)?,
        })
    }

    /// "23 no label named, an end below its start, a VLAN outside 1 to FFE, a label over FFFFFF, a MAC
    /// over 48 bits or a list too long"
    fn good(&self) -> bool {
        let lengths = [
            self.nicknames.len(),
            self.vlans.len(),
            self.fine.len(),
            self.macs.len(),
        ];
        let within = |blocks: &[Block], low: u64, high: u64| {
            blocks.iter().all(|&(start, end)| {
                start >= low && end >= low && start <= high && end <= high && end >= start
            })
        };
        !(self.vlans.is_empty() && self.fine.is_empty())
            && lengths.iter().all(|&length| length <= MOST)
            && within(&self.vlans, 0x001, 0xFFE)
            && within(&self.fine, 0, 0xFF_FFFF)
            && within(&self.macs, 0, 0xFFFF_FFFF_FFFF)
    }

    /// The payload.
    fn payload(&self) -> Vec<u8> {
        // "An empty nickname list gives K-nicks 0, the sender."
        let mut bytes = vec![self.nicknames.len() as u8];
        for &nickname in &self.nicknames {
            put(&mut bytes, nickname, 2);
        }
        // "in the VLAN block form when only VLANs are named and no MACs, in TLVs otherwise"
        if self.fine.is_empty() && self.macs.is_empty() {
            bytes.push(self.vlans.len() as u8);
            put_blocks(&mut bytes, &self.vlans, 2);
            return bytes;
        }
        bytes.push(0);
        // "TLVs of types 1, 3 and 8 in that order, each as full as whole blocks within 255 bytes allow,
        // and no empty TLV"
        for (kind, blocks, width) in [(1, &self.vlans, 2), (3, &self.fine, 3), (8, &self.macs, 6)] {
            for group in blocks.chunks(255 / (2 * width)) {
                bytes.push(kind);
                bytes.push((group.len() * 2 * width) as u8);
                put_blocks(&mut bytes, group, width);
            }
        }
        bytes
    }
}

/// The numbers of an area, `width` bytes each.
fn items(width: usize, area: &[u8]) -> Option<Vec<u64>> {
    let whole = area.chunks_exact(width);
    whole
        .remainder()
        .is_empty()
        .then(|| whole.map(number).collect())
}

fn blocks(width: usize, area: &[u8]) -> Option<Vec<Block>> {
    let numbers = items(width, area)?;
    let pairs = numbers.chunks_exact(2);
    pairs
        .remainder()
        .is_empty()
        .then(|| pairs.map(|pair| (pair[0], pair[1])).collect())
}

fn put(bytes: &mut Vec<u8>, number: u64, width: usize) {
    bytes.extend(&number.to_be_bytes()[8 - width..]);
}

fn put_blocks(bytes: &mut Vec<u8>, blocks: &[Block], width: usize) {
    for &(start, end) in blocks {
        put(bytes, start, width);
        put(bytes, end, width);
    }
}

/// The writing call: 23, "then 16".
pub fn write_flush(
    nicknames: &[u8],
    vlans: &[u8],
    fine: &[u8],
    macs: &[u8],
    out: &mut [u8],
) -> u64 {
    let Some(lists) = Lists::of(nicknames, vlans, fine, macs).filter(Lists::good) else {
        return Refusal::Lists as u64;
    };
    let payload = lists.payload();
    let Some(start) = out.get_mut(..payload.len()) else {
        return Refusal::OutputLength as u64;
    };
    start.copy_from_slice(&payload);
    64 | (payload.len() as u64) << 8
}
