//! The settings of a port.

use super::refusal::Refusal;
use super::{is_group, is_nickname};

/// Document 02, 2026-10: "Learning seconds 0 shall mean 1,200 instead of 300."
pub const DEFAULT_LIFE: u16 = 1200;

/// What 0 meant before, for "a port passing 300 behaves after the change as one passing 0 did before".
pub const OLD_LIFE: u16 = 300;

/// The settings as the C boundary passes them: any numbers. The last two are those of `receive_port`
/// alone.
#[derive(Clone, Copy, Debug, Default, PartialEq, Eq)]
pub struct Settings {
    pub port: u64,
    pub inner: u64,
    pub nickname: u32,
    pub compact: u32,
    pub confidence: u32,
    pub seconds: u32,
    pub multihomed: u32,
    pub smart: u32,
}

/// Settings in their ranges.
pub struct Port {
    pub port: u64,
    pub inner: u64,
    pub nickname: u16,
    pub compact: bool,
    pub confidence: u8,
    pub seconds: u16,
    pub multihomed: MultihomingBit,
    pub smart: bool,
}

/// An address is a number below 2^48.
fn is_individual(address: u64) -> bool {
    address < 1 << 48 && !is_group(address)
}

/// The outer source of an expansion: "a group address is 1", and so is a number of 2^48 or more.
pub fn check_outer_source(address: u64) -> Result<u64, Refusal> {
    if is_individual(address) {
        Ok(address)
    } else {
        Err(Refusal::Settings)
    }
}

impl Settings {
    /// The settings of a call that takes six numbers.
    pub fn six(&self) -> Settings {
        Settings {
            multihomed: 0,
            smart: 0,
            ..*self
        }
    }

    pub fn check(&self) -> Result<Port, Refusal> {
        self.check_with(DEFAULT_LIFE)
    }

    /// The same with another default of the learning seconds.
    pub fn check_with(&self, life: u16) -> Result<Port, Refusal> {
        // "Port address and own inner address (individual addresses, different)"
        let addresses =
            is_individual(self.port) && is_individual(self.inner) && self.port != self.inner;
        // "own nickname 0001 to FFBF"
        let nickname = is_nickname(u64::from(self.nickname));
        // "Compact on or off": 1 or 0
        let compact = self.compact <= 1;
        // "learning confidence 0 to 255"
        let confidence = self.confidence <= 255;
        // "learning seconds 10 to 8191, or 0 for the default"
        let seconds = match self.seconds {
            0 => Some(life),
            10..=8191 => Some(self.seconds as u16),
            _ => None,
        };
        let multihomed = MultihomingBit::check(self.multihomed)?;
        // Document 02, 2026-13: "A port with Smart Endnodes on", or off: 1 or 0
        let smart = self.smart <= 1;
        match seconds {
            Some(seconds) if addresses && nickname && compact && confidence && smart => Ok(Port {
                port: self.port,
                inner: self.inner,
                nickname: self.nickname as u16,
                compact: self.compact == 1,
                confidence: self.confidence as u8,
                seconds,
                multihomed,
                smart: self.smart == 1,
            }),
            _ => Err(Refusal::Settings),
        }
    }
}

/// Document 02, 2026-12: "A setting says which of the two R bits it is, or none." 0 is none, 1 the first, 2 the second.
#[derive(Clone, Copy, Debug, PartialEq, Eq)]
pub enum MultihomingBit {
    None,
    FirstReserved,
    SecondReserved,
}

impl MultihomingBit {
    fn check(setting: u32) -> Result<MultihomingBit, Refusal> {
        match setting {
            0 => Ok(MultihomingBit::None),
            1 => Ok(MultihomingBit::FirstReserved),
            2 => Ok(MultihomingBit::SecondReserved),
            _ => Err(Refusal::Settings),
        }
    }
}
