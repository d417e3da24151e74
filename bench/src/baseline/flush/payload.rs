//! A payload, judged.

/// A payload that is not corrupt.
pub struct Payload<'a> {
    pub nicknames: &'a [[u8; 2]],
    /// VLAN blocks; none in the form with TLVs.
    pub blocks: &'a [u8],
    tlvs: &'a [u8],
    /// A bit for each of the types 1 to 8 that names something.
    types: u16,
}

pub const VLAN_BLOCKS: u8 = 1;
pub const VLAN_MAP: u8 = 2;
pub const FINE_BLOCKS: u8 = 3;
pub const FINE_LIST: u8 = 4;
pub const FINE_MAP: u8 = 5;
pub const ALL_LABELS: u8 = 6;
pub const MAC_LIST: u8 = 7;
pub const MAC_BLOCKS: u8 = 8;

impl<'a> Payload<'a> {
    /// None if the payload is corrupt.
    #[inline(always)]
    pub fn judged(payload: &'a [u8]) -> Option<Payload<'a>> {
        Payload::judged_by(payload, types)
    }

    /// The same of a box that knows VLANs and all labels alone.
    #[inline(always)]
    pub fn judged_small(payload: &'a [u8]) -> Option<Payload<'a>> {
        Payload::judged_by(payload, small_types)
    }

    #[inline(always)]
    fn judged_by(payload: &'a [u8], types: impl Fn(&[u8]) -> Option<u16>) -> Option<Payload<'a>> {
        let (count, rest) = payload.split_first()?;
        let (nicknames, rest) = rest.split_at_checked(2 * usize::from(*count))?;
        let (count, rest) = rest.split_first()?;
        let (blocks, tlvs, types) = if *count > 0 {
            let blocks = rest.get(..4 * usize::from(*count))?;
            (blocks, &rest[..0], 1 << VLAN_BLOCKS)
        } else {
            (&rest[..0], rest, types(rest)?)
        };
        Some(Payload {
            nicknames: nicknames.as_chunks().0,
            blocks,
            tlvs,
            types,
        })
    }

    /// Whether TLVs of one of these types name something.
    #[inline(always)]
    pub fn has(&self, types: &[u8]) -> bool {
        types.iter().any(|kind| self.types >> kind & 1 != 0)
    }

    pub fn names_labels(&self) -> bool {
        self.types & ((1 << MAC_LIST) - 2) != 0
    }

    /// The place among all TLVs of the first one whose type and value are such; one of type 6 counts where `all_labels` says so, and
    /// empty ones of other types are none.
    #[inline(always)]
    pub fn place(&self, all_labels: bool, such: impl Fn(u8, &[u8]) -> bool) -> Option<usize> {
        let (mut rest, mut place) = (self.tlvs, 0);
        loop {
            while let [kind, 0, after @ ..] = rest {
                if *kind == ALL_LABELS && all_labels {
                    return Some(place);
                }
                place += 1;
                rest = after;
            }
            let ([kind, length], after) = rest.split_first_chunk()?;
            let (value, after) = after.split_at_checked(usize::from(*length))?;
            if such(*kind, value) {
                return Some(place);
            }
            place += 1;
            rest = after;
        }
    }

    /// The types and values of the TLVs.
    #[inline(always)]
    pub fn tlvs(&self) -> impl Iterator<Item = (u8, &'a [u8])> {
        let mut rest = self.tlvs;
        std::iter::from_fn(move || {
            let ([kind, length], after) = rest.split_first_chunk()?;
            let (value, after) = after.split_at_checked(usize::from(*length))?;
            rest = after;
            Some((*kind, value))
        })
    }
}

/// What an empty TLV of each type adds to the types.
const EMPTY: [u16; 256] = {
    let mut types = [0; 256];
    types[ALL_LABELS as usize] = 1 << ALL_LABELS;
    types[VLAN_MAP as usize] = CORRUPT;
    types[FINE_MAP as usize] = CORRUPT;
    types
};

/// A bit that is no type's: a map has no start.
const CORRUPT: u16 = 1 << 15;

/// The types of TLVs that name something. None if a TLV breaks the rule of its type.
#[inline(never)]
fn types(mut tlvs: &[u8]) -> Option<u16> {
    let mut types = 0;
    loop {
        // The lengths of empty TLVs need not be known to find the next.
        while let [kind, 0, rest @ ..] = tlvs {
            types |= EMPTY[usize::from(*kind)];
            tlvs = rest;
        }
        let [kind, length, rest @ ..] = tlvs else {
            break;
        };
        tlvs = rest.get(usize::from(*length)..)?;
        if !length_good(*kind, *length) {
            return None;
        }
        types |= 1_u16.checked_shl(u32::from(*kind)).unwrap_or(0) & NAMING;
    }
    // A lone last zero is padding.
    (matches!(tlvs, [] | [0]) && types & CORRUPT == 0).then_some(types)
}

/// What an empty TLV adds for a box that knows VLANs and all labels alone.
const SMALL_EMPTY: [u16; 256] = {
    let mut types = [0; 256];
    types[ALL_LABELS as usize] = 1 << ALL_LABELS;
    types[VLAN_MAP as usize] = CORRUPT;
    types
};

/// The types that it knows; others are skipped by length.
#[inline(never)]
fn small_types(mut tlvs: &[u8]) -> Option<u16> {
    let mut types = 0;
    loop {
        while let [kind, 0, rest @ ..] = tlvs {
            types |= SMALL_EMPTY[usize::from(*kind)];
            tlvs = rest;
        }
        let [kind, length, rest @ ..] = tlvs else {
            break;
        };
        tlvs = rest.get(usize::from(*length)..)?;
        if matches!(*kind, VLAN_BLOCKS | VLAN_MAP | ALL_LABELS) {
            if !length_good(*kind, *length) {
                return None;
            }
            types |= 1 << kind;
        }
    }
    (matches!(tlvs, [] | [0]) && types & CORRUPT == 0).then_some(types)
}

/// The types that name something, a bit each.
const NAMING: u16 = (1 << (MAC_BLOCKS + 1)) - (1 << VLAN_BLOCKS);

/// Whether a length other than 0 keeps the rule of the type.
fn length_good(kind: u8, length: u8) -> bool {
    match kind {
        VLAN_BLOCKS => length.is_multiple_of(4),
        VLAN_MAP => length >= 2,
        FINE_BLOCKS => length.is_multiple_of(6),
        FINE_LIST => length.is_multiple_of(3),
        FINE_MAP => length >= 3,
        ALL_LABELS => false,
        MAC_LIST => length.is_multiple_of(6),
        MAC_BLOCKS => length.is_multiple_of(12),
        _ => true,
    }
}
