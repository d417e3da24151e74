//! The answers and their packing into the word of the C boundary.

use super::record::Label;
use super::refusal::Refusal;

/// What learning did.
#[derive(Clone, Copy, Debug, PartialEq, Eq)]
pub enum Learning {
    Learned,
    Refreshed,
    Kept,
    Full,
}

pub enum Received {
    Onward,
    Delivered {
        length: usize,
        learning: Learning,
        label: Label,
    },
    OtherChannel,
    Flushed(Flushed),
}

/// The number of records cleared.
pub struct Flushed(pub usize);

/// The length of what compaction or expansion wrote.
pub struct Written(pub usize);

pub enum Sent {
    /// A part of the working area, from its start.
    Compacted(usize),
    /// The received frame itself.
    Itself,
}

/// The nickname found, if any.
pub struct Found(pub Option<u16>);

pub struct Aged;

/// The lowest spoilt slot, if any.
pub struct SpoiltSlot(pub Option<usize>);

/// The lowest free slot, if any, and the number of records unpacked.
pub struct FreeSlot {
    pub slot: Option<usize>,
    pub unpacked: usize,
}

/// "Otherwise the low byte is the kind, the other bits the values, unused bits 0."
pub trait Pack {
    fn pack(&self) -> u64;
}

/// "A refusal is its number alone, the whole 64 bits."
pub fn word<A: Pack>(outcome: Result<A, Refusal>) -> u64 {
    match outcome {
        Ok(answer) => answer.pack(),
        Err(refusal) => refusal as u64,
    }
}

fn kind_and_value(kind: u64, value: u64) -> u64 {
    kind | ((value & 0xFFFF) << 8)
}

impl Pack for Received {
    fn pack(&self) -> u64 {
        match self {
            Received::Onward => 64,
            Received::Delivered {
                length,
                learning,
                label,
            } => {
                let learning = match learning {
                    Learning::Learned => 0,
                    Learning::Refreshed => 1,
                    Learning::Kept => 2,
                    Learning::Full => 3,
                };
                kind_and_value(65, *length as u64)
                    | (learning << 24)
                    | (u64::from(label.kind()) << 32)
                    | (u64::from(label.number()) << 40)
            }
            Received::OtherChannel => 66,
            Received::Flushed(flushed) => flushed.pack(),
        }
    }
}

impl Pack for Flushed {
    fn pack(&self) -> u64 {
        kind_and_value(67, self.0 as u64)
    }
}

impl Pack for Written {
    fn pack(&self) -> u64 {
        kind_and_value(64, self.0 as u64)
    }
}

impl Pack for Sent {
    fn pack(&self) -> u64 {
        match self {
            Sent::Compacted(length) => kind_and_value(64, *length as u64),
            Sent::Itself => 65,
        }
    }
}

impl Pack for Found {
    fn pack(&self) -> u64 {
        match self.0 {
            Some(nickname) => kind_and_value(64, u64::from(nickname)),
            None => 65,
        }
    }
}

impl Pack for Aged {
    fn pack(&self) -> u64 {
        64
    }
}

impl Pack for SpoiltSlot {
    fn pack(&self) -> u64 {
        match self.0 {
            Some(slot) => kind_and_value(64, slot as u64),
            None => 65,
        }
    }
}

impl Pack for FreeSlot {
    fn pack(&self) -> u64 {
        let found = match self.slot {
            Some(slot) => kind_and_value(64, slot as u64),
            None => 65,
        };
        found | (self.unpacked as u64) << 32
    }
}
