//! What goes into a call beside bytes.

use core::fmt;

use crate::raw;

/// An address of six bytes, in the order of the wire.
///
/// ```
/// use shinglebar::Mac;
///
/// let port = Mac([0x02, 0, 0, 0, 0, 0xA1]);
/// assert_eq!(port.to_string(), "02-00-00-00-00-A1");
/// assert_eq!(port.number(), 0x0200_0000_00A1);
/// ```
#[derive(Clone, Copy, Debug, Default, PartialEq, Eq, PartialOrd, Ord, Hash)]
pub struct Mac(pub [u8; 6]);

impl Mac {
    /// The address as a number, the first byte most significant.
    #[inline]
    pub const fn number(self) -> u64 {
        let [a, b, c, d, e, f] = self.0;
        u64::from_be_bytes([0, 0, a, b, c, d, e, f])
    }

    /// The address of a number below 2^48.
    #[inline]
    pub const fn from_number(number: u64) -> Option<Mac> {
        match number.to_be_bytes() {
            [0, 0, a, b, c, d, e, f] => Some(Mac([a, b, c, d, e, f])),
            _ => None,
        }
    }
}

impl fmt::Display for Mac {
    fn fmt(&self, to: &mut fmt::Formatter) -> fmt::Result {
        let [a, b, c, d, e, f] = self.0;
        write!(to, "{a:02X}-{b:02X}-{c:02X}-{d:02X}-{e:02X}-{f:02X}")
    }
}

/// A label. VLAN 10 and fine-grained 10 are different labels.
#[derive(Clone, Copy, Debug, PartialEq, Eq, PartialOrd, Ord, Hash)]
pub enum Label {
    /// A VLAN, 1 to FFE.
    Vlan(u16),
    /// A fine-grained label of 24 bits.
    Fine(u32),
}

impl Label {
    /// 0 for a VLAN, 1 for a fine-grained label.
    #[inline]
    pub const fn kind(self) -> u32 {
        match self {
            Label::Vlan(_) => 0,
            Label::Fine(_) => 1,
        }
    }

    /// The number of the VLAN or of the fine-grained label.
    #[inline]
    pub const fn number(self) -> u32 {
        match self {
            Label::Vlan(number) => number as u32,
            Label::Fine(number) => number,
        }
    }
}

impl fmt::Display for Label {
    fn fmt(&self, to: &mut fmt::Formatter) -> fmt::Result {
        match self {
            Label::Vlan(number) => write!(to, "VLAN {number}"),
            Label::Fine(number) => write!(to, "fine-grained {number}"),
        }
    }
}

/// The settings of a port.
///
/// Values outside the ranges below are [`Refusal::Settings`](crate::Refusal::Settings) in every
/// call that takes settings. Only [`receive_port`](crate::receive_port) takes the last two;
/// `..Settings::default()` leaves them out.
#[derive(Clone, Copy, Debug, Default, PartialEq, Eq)]
pub struct Settings {
    /// The port's address, an individual address.
    pub port: Mac,
    /// The own inner address, an individual address other than the port's.
    pub inner: Mac,
    /// The own nickname, 0001 to FFBF.
    pub nickname: u16,
    /// Compact on or off.
    pub compact: bool,
    /// The confidence with which addresses are learned.
    pub confidence: u8,
    /// The seconds for which addresses are learned, 10 to 8191, or 0 for the default 1200.
    pub seconds: u16,
    /// The R bit of the header that marks frames of a station on two switches: 0 none, 1 the first, 2 the second.
    pub multihomed: u8,
    /// Smart Endnodes on or off: whether stations encapsulate for themselves, with the own nickname as ingress. Such frames teach nothing.
    pub smart: bool,
}

impl From<&Settings> for raw::Settings {
    #[inline]
    fn from(settings: &Settings) -> raw::Settings {
        raw::Settings {
            port: settings.port.number(),
            inner: settings.inner.number(),
            nickname: u32::from(settings.nickname),
            compact: u32::from(settings.compact),
            confidence: u32::from(settings.confidence),
            seconds: u32::from(settings.seconds),
            multihomed: u32::from(settings.multihomed),
            smart: u32::from(settings.smart),
        }
    }
}

/// What an expansion writes in front of the inner frame beside the far port's address.
#[derive(Clone, Copy, Debug, PartialEq, Eq)]
pub struct Outer {
    /// The outer source, an individual address.
    pub source: Mac,
    /// The number of the outer tag, 1 to FFE, if there is to be one.
    pub tag: Option<u16>,
}

impl From<&Outer> for raw::Outer {
    #[inline]
    fn from(outer: &Outer) -> raw::Outer {
        raw::Outer {
            source: outer.source.number(),
            tagged: u32::from(outer.tag.is_some()),
            tag: u32::from(outer.tag.unwrap_or(0)),
        }
    }
}

/// A port's own VLAN number, 1 to FFE.
#[derive(Clone, Copy, Debug, PartialEq, Eq, PartialOrd, Ord, Hash)]
pub struct PortVlan(pub u16);

/// A fine-grained label of the campus, 0 to FFFFFF.
#[derive(Clone, Copy, Debug, PartialEq, Eq, PartialOrd, Ord, Hash)]
pub struct CampusLabel(pub u32);

/// A pair of a port's map: six bytes, as they lie in the map. A map is a slice of pairs, and an empty
/// one is no map.
///
/// ```
/// use shinglebar::{CampusLabel, Pair, PortVlan};
///
/// let pair = Pair::new(PortVlan(10), CampusLabel(0xABCDEF));
/// assert_eq!(shinglebar::raw::map_bytes(&[pair]), [0x00, 0x0A, 0x00, 0xAB, 0xCD, 0xEF]);
/// assert_eq!((pair.vlan(), pair.label()), (PortVlan(10), CampusLabel(0xABCDEF)));
/// ```
#[derive(Clone, Copy, Debug, PartialEq, Eq, Hash)]
#[repr(transparent)]
pub struct Pair([u8; 6]);

impl Pair {
    /// A VLAN of the port and the label that it has on the campus.
    #[inline]
    pub const fn new(vlan: PortVlan, label: CampusLabel) -> Pair {
        let ([a, b], [c, d, e, f]) = (vlan.0.to_be_bytes(), label.0.to_be_bytes());
        Pair([a, b, c, d, e, f])
    }

    /// The VLAN.
    #[inline]
    pub const fn vlan(self) -> PortVlan {
        let [a, b, _, _, _, _] = self.0;
        PortVlan(u16::from_be_bytes([a, b]))
    }

    /// The label.
    #[inline]
    pub const fn label(self) -> CampusLabel {
        let [_, _, c, d, e, f] = self.0;
        CampusLabel(u32::from_be_bytes([c, d, e, f]))
    }
}

/// What ingress puts around a native frame.
#[derive(Clone, Copy, Debug, PartialEq, Eq)]
pub struct Encapsulation {
    /// The outer destination: the next switch, or 01-80-C2-00-00-40 where M is 1.
    pub outer_destination: Mac,
    /// The outer source, an individual address.
    pub outer_source: Mac,
    /// The M bit: the frame goes to many.
    pub multicast: bool,
    /// The hop count, 1 to 63.
    pub hop_count: u8,
    /// The nickname of the switch, or of the tree, that the frame goes to.
    pub egress: u16,
    /// The nickname that the frame comes from.
    pub ingress: u16,
}

impl From<&Encapsulation> for raw::Encapsulation {
    #[inline]
    fn from(given: &Encapsulation) -> raw::Encapsulation {
        raw::Encapsulation {
            outer_destination: given.outer_destination.number(),
            outer_source: given.outer_source.number(),
            m: u32::from(given.multicast),
            hop_count: u32::from(given.hop_count),
            egress: u32::from(given.egress),
            ingress: u32::from(given.ingress),
        }
    }
}
