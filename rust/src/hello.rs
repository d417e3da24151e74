//! Smart-Hellos (RFC 8384): payloads to contents.
//!
//! Contents lie in an area as numbers of 8 bytes, most significant byte first: the number of Smart-Parameters, holding time and flags;
//! then for each kind of sub-TLV, nicknames, trees and Smart-MACs, how many there are, and each of them. [`Contents`] reads such an
//! area.

use core::fmt;

use crate::{answered, raw, Mac, ReadHello, Refusal};

/// The bytes of a number of an area.
pub(crate) const NUMBER: usize = 8;

/// Reads the payload of a Smart-Hello into its contents area. For each kind of sub-TLV the contents have those of the payload in
/// order; whatever else is in it is skipped.
///
/// ```
/// use shinglebar::{hello_read, Contents, Refusal};
///
/// // TLV 251 of application 1 with Smart-Parameters: holding time 30, no flags.
/// let payload = [0xFB, 9, 0, 0, 1, 22, 4, 0, 30, 0, 0];
/// let mut area = [0; 64];
/// let read = hello_read(&payload, &mut area)?;
/// let contents = Contents::new(&area[..read.length]).expect("what was read");
/// assert_eq!((contents.holding, contents.flags), (30, 0));
/// assert_eq!((contents.nicknames().count(), contents.macs().count()), (0, 0));
///
/// assert_eq!(hello_read(&payload[..10], &mut area), Err(Refusal::Hello));
/// assert_eq!(hello_read(&[], &mut area), Err(Refusal::ParametersMissing));
/// # Ok::<(), Refusal>(())
/// ```
#[inline]
pub fn hello_read(payload: &[u8], contents: &mut [u8]) -> Result<ReadHello, Refusal> {
    answered(raw::hello_read(payload, contents))
}

/// A record of a Nickname sub-TLV.
#[derive(Clone, Copy, Debug, PartialEq, Eq, Hash)]
pub struct NicknameRecord {
    /// The priority for the nickname.
    pub priority: u8,
    /// The priority to become a tree root.
    pub root_priority: u16,
    /// The nickname.
    pub nickname: u16,
}

/// Numbers of an area, one after the other.
#[derive(Clone, Copy)]
struct Numbers<'a>(&'a [u8]);

impl<'a> Numbers<'a> {
    fn next(&mut self) -> Option<u64> {
        let (number, rest) = self.0.split_first_chunk::<NUMBER>()?;
        self.0 = rest;
        Some(u64::from_be_bytes(*number))
    }

    /// The next number, if it has its field's size.
    fn small<T: TryFrom<u64>>(&mut self) -> Option<T> {
        self.next().and_then(|number| T::try_from(number).ok())
    }

    /// The next `count` times `width` numbers.
    fn part(&mut self, count: u64, width: u64) -> Option<Numbers<'a>> {
        let bytes = count.checked_mul(width)?.checked_mul(NUMBER as u64)?;
        let (part, rest) = self.0.split_at_checked(usize::try_from(bytes).ok()?)?;
        self.0 = rest;
        Some(Numbers(part))
    }
}

impl fmt::Debug for Numbers<'_> {
    fn fmt(&self, to: &mut fmt::Formatter) -> fmt::Result {
        write!(to, "{} numbers", self.0.len() / NUMBER)
    }
}

/// The contents of a Smart-Hello, in their area.
#[derive(Clone, Copy, Debug)]
pub struct Contents<'a> {
    /// The holding time in seconds.
    pub holding: u16,
    /// The 16 flag bits of Smart-Parameters.
    pub flags: u16,
    nicknames: Numbers<'a>,
    trees: Numbers<'a>,
    macs: Numbers<'a>,
}

/// A Nickname sub-TLV: its records.
#[derive(Clone, Copy, Debug)]
pub struct Nicknames<'a>(Numbers<'a>);

/// A Tree Identifiers sub-TLV.
#[derive(Clone, Copy, Debug)]
pub struct Trees<'a> {
    /// The starting tree number.
    pub start: u16,
    nicknames: Numbers<'a>,
}

/// A Smart-MAC APPsub-TLV.
#[derive(Clone, Copy, Debug)]
pub struct SmartMac<'a> {
    /// F: the label is a fine-grained one; otherwise a VLAN.
    pub fine: bool,
    /// M: the Smart Endnode is multihomed.
    pub multihomed: bool,
    /// The label.
    pub label: u32,
    macs: Numbers<'a>,
}

impl<'a> Contents<'a> {
    /// The contents in an area that [`hello_read`] wrote; none where it has another form.
    pub fn new(area: &'a [u8]) -> Option<Contents<'a>> {
        let mut rest = Numbers(area);
        if rest.next()? != 1 {
            return None;
        }
        let (holding, flags) = (rest.small()?, rest.small()?);
        let nicknames = section(&mut rest, |rest| nicknames_in(rest).map(|_| ()))?;
        let trees = section(&mut rest, |rest| trees_in(rest).map(|_| ()))?;
        let macs = section(&mut rest, |rest| mac_in(rest).map(|_| ()))?;
        rest.0.is_empty().then_some(Contents {
            holding,
            flags,
            nicknames,
            trees,
            macs,
        })
    }

    /// The Nickname sub-TLVs.
    pub fn nicknames(&self) -> impl Iterator<Item = Nicknames<'a>> {
        let mut rest = self.nicknames;
        core::iter::from_fn(move || nicknames_in(&mut rest))
    }

    /// The Tree Identifiers sub-TLVs.
    pub fn trees(&self) -> impl Iterator<Item = Trees<'a>> {
        let mut rest = self.trees;
        core::iter::from_fn(move || trees_in(&mut rest))
    }

    /// The Smart-MAC APPsub-TLVs.
    pub fn macs(&self) -> impl Iterator<Item = SmartMac<'a>> {
        let mut rest = self.macs;
        core::iter::from_fn(move || mac_in(&mut rest))
    }
}

impl Nicknames<'_> {
    /// Its records.
    pub fn records(&self) -> impl Iterator<Item = NicknameRecord> + '_ {
        let mut rest = self.0;
        core::iter::from_fn(move || record_in(&mut rest))
    }
}

impl Trees<'_> {
    /// The nicknames of the trees.
    pub fn nicknames(&self) -> impl Iterator<Item = u16> + '_ {
        let mut rest = self.nicknames;
        core::iter::from_fn(move || rest.small())
    }
}

impl SmartMac<'_> {
    /// The addresses.
    pub fn macs(&self) -> impl Iterator<Item = Mac> + '_ {
        let mut rest = self.macs;
        core::iter::from_fn(move || rest.next().and_then(Mac::from_number))
    }
}

/// The elements of a section, counted in front of it.
fn section<'a>(
    rest: &mut Numbers<'a>,
    mut element: impl FnMut(&mut Numbers<'a>) -> Option<()>,
) -> Option<Numbers<'a>> {
    let count = rest.next()?;
    let start = *rest;
    for _ in 0..count {
        element(rest)?;
    }
    Some(Numbers(&start.0[..start.0.len() - rest.0.len()]))
}

fn record_in(rest: &mut Numbers) -> Option<NicknameRecord> {
    Some(NicknameRecord {
        priority: rest.small()?,
        root_priority: rest.small()?,
        nickname: rest.small()?,
    })
}

fn nicknames_in<'a>(rest: &mut Numbers<'a>) -> Option<Nicknames<'a>> {
    let count = rest.next()?;
    let records = rest.part(count, 3)?;
    let mut left = records;
    for _ in 0..count {
        record_in(&mut left)?;
    }
    Some(Nicknames(records))
}

fn trees_in<'a>(rest: &mut Numbers<'a>) -> Option<Trees<'a>> {
    let start = rest.small()?;
    let count = rest.next()?;
    let nicknames = rest.part(count, 1)?;
    let mut left = nicknames;
    for _ in 0..count {
        left.small::<u16>()?;
    }
    Some(Trees { start, nicknames })
}

fn mac_in<'a>(rest: &mut Numbers<'a>) -> Option<SmartMac<'a>> {
    let truth = |number| match number {
        0 => Some(false),
        1 => Some(true),
        _ => None,
    };
    let (fine, multihomed) = (truth(rest.next()?)?, truth(rest.next()?)?);
    let label = rest.small()?;
    let count = rest.next()?;
    let macs = rest.part(count, 1)?;
    let mut left = macs;
    for _ in 0..count {
        Mac::from_number(left.next()?)?;
    }
    Some(SmartMac {
        fine,
        multihomed,
        label,
        macs,
    })
}
