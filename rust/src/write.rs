//! Writing the payload of an Address Flush, from typed lists.

use crate::{answered, raw, Mac, Refusal, Written};

/// One more item than a list may have: a longer list is cut to so many, and refused all the same.
const ITEMS: usize = 256;

/// What others are to forget. A block has its start and its end, both included.
#[derive(Clone, Copy, Debug, Default, PartialEq, Eq, Hash)]
pub struct Asked<'a> {
    /// The nicknames, or none for the sender's.
    pub nicknames: &'a [u16],
    /// Blocks of VLANs, 1 to FFE.
    pub vlans: &'a [(u16, u16)],
    /// Blocks of fine-grained labels of 24 bits.
    pub fine: &'a [(u32, u32)],
    /// Blocks of MACs, or none for every MAC.
    pub macs: &'a [(Mac, Mac)],
}

/// Puts the items one after the other, and gives how many bytes they take.
fn laid<const N: usize>(area: &mut [u8], items: impl Iterator<Item = [u8; N]>) -> usize {
    let mut length = 0;
    for (place, item) in area.chunks_exact_mut(N).zip(items) {
        place.copy_from_slice(&item);
        length += N;
    }
    length
}

/// Writes the payload of an Address Flush: the VLAN block form where only VLANs are named, TLVs
/// otherwise. At most 255 nicknames and 255 blocks of each kind, at least one block of labels.
///
/// ```
/// use shinglebar::{Asked, Refusal, Written};
///
/// let asked = Asked {
///     nicknames: &[0x1234],
///     vlans: &[(10, 12)],
///     ..Asked::default()
/// };
/// let mut payload = [0; shinglebar::WRITTEN_LENGTH_MAX];
/// assert_eq!(shinglebar::write_flush(&asked, &mut payload), Ok(Written { length: 8 }));
/// assert_eq!(payload[..8], [0x01, 0x12, 0x34, 0x01, 0x00, 0x0A, 0x00, 0x0C]);
///
/// let none = shinglebar::write_flush(&Asked::default(), &mut payload);
/// assert_eq!(none, Err(Refusal::Lists));
/// ```
#[inline]
pub fn write_flush(asked: &Asked, out: &mut [u8]) -> Result<Written, Refusal> {
    let (mut nicknames, mut vlans) = ([0; 2 * ITEMS], [0; 4 * ITEMS]);
    let (mut fine, mut macs) = ([0; 8 * ITEMS], [0; 16 * ITEMS]);
    let n = laid(
        &mut nicknames,
        asked.nicknames.iter().map(|x| x.to_be_bytes()),
    );
    let v = laid::<2>(&mut vlans, ends(asked.vlans).map(u16::to_be_bytes));
    let f = laid::<4>(&mut fine, ends(asked.fine).map(u32::to_be_bytes));
    let m = laid::<8>(
        &mut macs,
        ends(asked.macs).map(|mac| mac.number().to_be_bytes()),
    );
    answered(raw::write_flush(
        &nicknames[..n],
        &vlans[..v],
        &fine[..f],
        &macs[..m],
        out,
    ))
}

/// The start and the end of each block.
fn ends<T: Copy>(blocks: &[(T, T)]) -> impl Iterator<Item = T> + '_ {
    blocks.iter().flat_map(|&(start, end)| [start, end])
}
