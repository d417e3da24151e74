//! The settings of a port.

use super::record::{nickname_good, GROUP};
use super::refusal;

pub struct Port {
    pub port: u64,
    pub inner: u64,
    pub nickname: u16,
    pub compact: bool,
    pub confidence: u8,
    pub seconds: u16,
    /// The R bit that marks frames of a station on two switches, in the first byte of the header; 0 for none.
    pub mark: u8,
    /// Smart Endnodes on: our own ingress nickname is not refused.
    pub smart: bool,
}

/// An individual address, below 2^48.
pub fn is_individual(address: u64) -> bool {
    address & (!0 << 48 | GROUP) == 0
}

impl Port {
    #[inline(always)]
    pub fn new(
        port: u64,
        inner: u64,
        nickname: u32,
        compact: u32,
        confidence: u32,
        seconds: u32,
    ) -> Result<Port, u64> {
        let addresses = is_individual(port | inner) && port != inner;
        let seconds = if seconds == 0 { 1200 } else { seconds };
        if !addresses
            || !nickname_good(u64::from(nickname))
            || compact > 1
            || confidence > 255
            || !(10..=8191).contains(&seconds)
        {
            return Err(refusal::SETTINGS);
        }
        Ok(Port {
            port,
            inner,
            nickname: nickname as u16,
            compact: compact == 1,
            confidence: confidence as u8,
            seconds: seconds as u16,
            mark: 0,
            smart: false,
        })
    }

    /// The same with the settings multihomed (0 none, 1 the first R bit, 2 the second) and Smart Endnodes.
    #[inline(always)]
    pub fn with(self, multihomed: u32, smart: u32) -> Port {
        let mark = [0, 0x20, 0x10][multihomed as usize];
        Port {
            mark,
            smart: smart == 1,
            ..self
        }
    }
}
