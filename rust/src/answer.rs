//! The answers, and the words of the C boundary that stand for them.
//!
//! | call | low byte | bits |
//! |---|---|---|
//! | receive, receive_port | 64 onward | |
//! | receive, receive_port | 65 delivered | 8..23 length, 24..25 learning, 32 label kind, 40..63 label |
//! | receive, receive_port | 66 other channel | |
//! | receive, receive_port, flush, flush_vlan_only | 67 flushed | 8..23 records cleared |
//! | flush_portion | 64 portion done | 8..23 cleared, 24..39 next slot, 40..55 examined |
//! | why | 64 free, 65 spoilt, 66 configured, 67 nickname, 68 label, 69 MAC not meant | |
//! | why | 70 cleared | 8..15 nickname place, 16 sender, 17 label by a TLV, 18..39 label place, 40..61 MAC place, 63 every MAC |
//! | compact, expand, ingress, widen, write_flush, report | 64 written | 8..23 length |
//! | hello_read, hello_write | 64 written | 8..63 length |
//! | send, send_watched | 64 compacted | 8..23 length |
//! | send, send_watched | 65 the frame itself | |
//! | lookup | 64 found | 8..23 nickname |
//! | spoilt | 64 slot | 8..23 slot |
//! | lookup, spoilt | 65 none | |
//! | free slot | 64 slot | 8..23 slot; 32..47 unpacked |
//! | free slot | 65 none | 32..47 unpacked |
//! | age | 64 done | |
//! | watch_reset, _tick, _event | 64 | 8..39 seconds left |
//!
//! All other bits are 0. A refusal is its number alone.

use core::error::Error;
use core::fmt;
use core::ops::RangeInclusive;

use crate::{Label, Refusal, PLACE_MAX, RECORD_LENGTH, REPORT_LENGTH_MAX, TABLE_LENGTH_MAX};

/// The bytes of what a call writes: a frame.
const LENGTHS: RangeInclusive<u16> = 14..=9216;
/// The bytes of a table that is written.
const TABLES: RangeInclusive<u16> = RECORD_LENGTH as u16..=TABLE_LENGTH_MAX as u16;
/// The bytes of a payload that is written: one VLAN block, and 255 of everything.
const PAYLOADS: RangeInclusive<u16> = 6..=6172;
/// The bytes of a report: the line of a bad length, or at least the two last lines and at most a line for each slot before them.
const REFUSED_REPORT: u16 = 10;
const REPORTS: RangeInclusive<u16> = 16..=REPORT_LENGTH_MAX as u16;
/// The bytes of contents that have Smart-Parameters and nothing else: six numbers.
const LEAST_CONTENTS: u64 = 48;
/// The bytes of a Smart-Hello that has nothing else: a TLV of 9 bytes.
const LEAST_HELLO: u64 = 11;
/// The records of a table that can be cleared, and its slots.
const COUNTS: RangeInclusive<u16> = 0..=4096;
const SLOTS: RangeInclusive<u16> = 0..=4095;
/// The last place of a list of 255.
const SHORT_PLACE_MAX: u64 = 254;
const NICKNAMES: RangeInclusive<u16> = 0x0001..=0xFFBF;
const VLANS: RangeInclusive<u16> = 0x001..=0xFFE;

/// What learning did with the inner source of a frame delivered.
#[derive(Clone, Copy, Debug, PartialEq, Eq, Hash)]
pub enum Learning {
    /// It stands in a slot that was free.
    Learned,
    /// Its record was overwritten.
    Refreshed,
    /// Its record stays: it is configured, or has a higher confidence.
    Kept,
    /// It is not in the table, which has no free slot.
    Full,
}

/// What reading a frame came to.
#[derive(Clone, Copy, Debug, PartialEq, Eq, Hash)]
pub enum Received {
    /// The frame is for another switch. Nothing was changed.
    Onward,
    /// A native frame starts the output area.
    Delivered {
        /// The bytes of the native frame.
        length: usize,
        /// What became of its source.
        learning: Learning,
        /// Its label.
        label: Label,
    },
    /// A channel message that is no Address Flush. Nothing was changed.
    OtherChannel,
    /// An Address Flush was carried out.
    Flushed {
        /// The records cleared.
        count: u16,
    },
}

/// An Address Flush was carried out.
#[derive(Clone, Copy, Debug, PartialEq, Eq, Hash)]
pub struct Flushed {
    /// The records cleared.
    pub count: u16,
}

/// A portion of an Address Flush was carried out.
#[derive(Clone, Copy, Debug, PartialEq, Eq, Hash)]
pub struct Portioned {
    /// The records cleared.
    pub cleared: u16,
    /// The slot to go on from; the number of slots where the flush is done.
    pub next: u16,
    /// The slots examined: the smaller of k and those left.
    pub examined: u16,
}

/// Why a flush clears the record of a slot, or leaves it: the first reason that applies.
#[derive(Clone, Copy, Debug, PartialEq, Eq, Hash)]
pub enum Why {
    /// The slot is free.
    Free,
    /// The record is spoilt.
    Spoilt,
    /// The record is configured.
    Configured,
    /// The flush does not mean its nickname.
    NicknameNotMeant,
    /// The flush does not mean its label.
    LabelNotMeant,
    /// The flush does not mean its MAC.
    MacNotMeant,
    /// The record is cleared.
    Cleared {
        /// What brings its nickname.
        nickname: NicknameBy,
        /// What brings its label.
        label: LabelBy,
        /// What brings its MAC.
        mac: MacBy,
    },
}

/// What of a payload brings a nickname.
#[derive(Clone, Copy, Debug, PartialEq, Eq, Hash)]
pub enum NicknameBy {
    /// The first listed nickname that matches, counted from 0.
    Listed(u8),
    /// K-nicks is 0: the sender's.
    Sender,
}

/// What of a payload brings a label: the first, counted from 0.
#[derive(Clone, Copy, Debug, PartialEq, Eq, Hash)]
pub enum LabelBy {
    /// A VLAN block, among those behind K-VLBs.
    Block(u8),
    /// A TLV, among all of them; a place over [`PLACE_MAX`] shows as that.
    Tlv(u32),
}

/// What of a payload brings a MAC.
#[derive(Clone, Copy, Debug, PartialEq, Eq, Hash)]
pub enum MacBy {
    /// The first TLV that does, counted from 0 among all of them; a place over [`PLACE_MAX`] shows as that.
    Tlv(u32),
    /// No MAC was gathered: every one is meant.
    Every,
}

/// The result of a compaction starts the output area.
#[derive(Clone, Copy, Debug, PartialEq, Eq, Hash)]
pub struct Compacted {
    /// The bytes written.
    pub length: usize,
}

/// The result of an expansion starts the output area.
#[derive(Clone, Copy, Debug, PartialEq, Eq, Hash)]
pub struct Expanded {
    /// The bytes written.
    pub length: usize,
}

/// The payload of an Address Flush starts the output area.
#[derive(Clone, Copy, Debug, PartialEq, Eq, Hash)]
pub struct Written {
    /// The bytes written.
    pub length: usize,
}

/// What reading a frame at a port with a map came to: the answers of [`Received`], and the refusals of the
/// map too. The label is the campus label, the length that of the bytes written.
#[derive(Clone, Copy, Debug, PartialEq, Eq, Hash)]
pub struct ReceivedAtPort(
    /// The answer.
    pub Received,
);

/// The General frame that ingress made starts the output area.
#[derive(Clone, Copy, Debug, PartialEq, Eq, Hash)]
pub struct Ingressed {
    /// The bytes written.
    pub length: usize,
}

/// What to send.
#[derive(Clone, Copy, Debug, PartialEq, Eq, Hash)]
pub enum Sent {
    /// The compacted frame, which starts the working area.
    Compacted {
        /// The bytes written.
        length: usize,
    },
    /// The received frame itself. The working area is unchanged.
    Itself,
}

impl Sent {
    /// The bytes to send, of the frame and the working area of the call.
    ///
    /// # Panics
    ///
    /// If the working area is shorter than the compacted frame, and so another one.
    pub fn bytes<'a>(&self, frame: &'a [u8], work: &'a [u8]) -> &'a [u8] {
        match *self {
            Sent::Compacted { length } => &work[..length],
            Sent::Itself => frame,
        }
    }
}

/// What the table says of an address.
#[derive(Clone, Copy, Debug, PartialEq, Eq, Hash)]
pub enum Found {
    /// The nickname of the switch that the address is behind.
    Nickname(u16),
    /// No record has the label and address.
    None,
}

/// The table was aged.
#[derive(Clone, Copy, Debug, PartialEq, Eq, Hash)]
pub struct Aged;

/// The lowest spoilt slot.
#[derive(Clone, Copy, Debug, PartialEq, Eq, Hash)]
pub enum Spoilt {
    /// Counted from 0.
    Slot(u16),
    /// No slot is spoilt.
    None,
}

/// The widened table starts the output area.
#[derive(Clone, Copy, Debug, PartialEq, Eq, Hash)]
pub struct Widened {
    /// The bytes written.
    pub length: usize,
}

/// The morning report starts the output area.
#[derive(Clone, Copy, Debug, PartialEq, Eq, Hash)]
pub struct Reported {
    /// The bytes written.
    pub length: usize,
}

/// The contents of a Smart-Hello start the contents area.
#[derive(Clone, Copy, Debug, PartialEq, Eq, Hash)]
pub struct ReadHello {
    /// The bytes written, a multiple of 8.
    pub length: usize,
}

/// The payload of a Smart-Hello starts the output area.
#[derive(Clone, Copy, Debug, PartialEq, Eq, Hash)]
pub struct WrittenHello {
    /// The bytes written.
    pub length: usize,
}

/// The lowest free slot, with the number of records that the search unpacked: those whose state bits are 0, up to
/// the slot that it found.
#[derive(Clone, Copy, Debug, PartialEq, Eq, Hash)]
pub enum FreeSlot {
    /// Counted from 0.
    Slot {
        /// The lowest free slot.
        slot: u16,
        /// At least 1: the slot itself.
        unpacked: u16,
    },
    /// No slot is free.
    None {
        /// All records whose state bits are 0.
        unpacked: u16,
    },
}

/// The answers of a call, without its refusals.
pub trait Answer: Sized {
    /// The refusals that the call can give.
    const REFUSALS: &'static [Refusal];

    /// The answer whose kind and values are in the word, if they are those of an answer. Other bits
    /// are not looked at: [`decode`] does.
    fn from_word(word: u64) -> Option<Self>;

    /// The word of the answer.
    fn word(&self) -> u64;
}

/// A word that the call cannot give: the archive is not the one this package was made for.
#[derive(Clone, Copy, Debug, PartialEq, Eq)]
pub struct UnknownWord(
    /// The word.
    pub u64,
);

impl fmt::Display for UnknownWord {
    fn fmt(&self, to: &mut fmt::Formatter) -> fmt::Result {
        write!(to, "{:#018x} is no answer of this call", self.0)
    }
}

impl Error for UnknownWord {}

/// Reads the word of a call. Every bit counts: a word is read exactly if [`encode`] gives it back.
///
/// ```
/// use shinglebar::{decode, Flushed, Refusal, UnknownWord};
///
/// assert_eq!(decode(0x0243), Ok(Ok(Flushed { count: 2 })));
/// assert_eq!(decode::<Flushed>(15), Ok(Err(Refusal::Payload)));
/// // No kind of a flush; a refusal of other calls; a bit that belongs to nothing.
/// for word in [64, 18, 0x8000_0000_0000_0243] {
///     assert_eq!(decode::<Flushed>(word), Err(UnknownWord(word)));
/// }
/// ```
pub fn decode<A: Answer>(word: u64) -> Result<Result<A, Refusal>, UnknownWord> {
    if let Some(refusal) = Refusal::from_number(word) {
        return match A::REFUSALS.contains(&refusal) {
            true => Ok(Err(refusal)),
            false => Err(UnknownWord(word)),
        };
    }
    match A::from_word(word) {
        Some(answer) if answer.word() == word => Ok(Ok(answer)),
        _ => Err(UnknownWord(word)),
    }
}

/// The word of an answer or refusal.
pub fn encode<A: Answer>(outcome: &Result<A, Refusal>) -> u64 {
    match outcome {
        Ok(answer) => answer.word(),
        Err(refusal) => u64::from(refusal.number()),
    }
}

fn kind(word: u64) -> u8 {
    word as u8
}

/// The value in bits 8 to 23, if it is in the range.
fn value(word: u64, range: RangeInclusive<u16>) -> Option<u16> {
    let value = (word >> 8) as u16;
    range.contains(&value).then_some(value)
}

fn length(word: u64) -> Option<usize> {
    value(word, LENGTHS).map(usize::from)
}

fn with_value(kind: u64, value: u16) -> u64 {
    kind | u64::from(value) << 8
}

/// A length out of range has no word of its own; none is read from a word.
fn with_length(kind: u64, length: usize) -> u64 {
    kind | (length as u64) << 8
}

impl Learning {
    fn from_word(word: u64) -> Learning {
        match word >> 24 & 3 {
            0 => Learning::Learned,
            1 => Learning::Refreshed,
            2 => Learning::Kept,
            _ => Learning::Full,
        }
    }

    fn number(self) -> u64 {
        match self {
            Learning::Learned => 0,
            Learning::Refreshed => 1,
            Learning::Kept => 2,
            Learning::Full => 3,
        }
    }
}

impl fmt::Display for Learning {
    fn fmt(&self, to: &mut fmt::Formatter) -> fmt::Result {
        to.write_str(match self {
            Learning::Learned => "learned",
            Learning::Refreshed => "refreshed",
            Learning::Kept => "kept",
            Learning::Full => "full",
        })
    }
}

fn label(word: u64) -> Option<Label> {
    let number = (word >> 40) as u32;
    if word >> 32 & 1 == 1 {
        return Some(Label::Fine(number));
    }
    let number = u16::try_from(number).ok()?;
    VLANS.contains(&number).then_some(Label::Vlan(number))
}

impl Answer for Received {
    const REFUSALS: &'static [Refusal] = &[
        Refusal::Settings,
        Refusal::TableLength,
        Refusal::FrameLength,
        Refusal::NotTrill,
        Refusal::NotForThisPort,
        Refusal::Cut,
        Refusal::Version,
        Refusal::HopCount,
        Refusal::Nickname,
        Refusal::Label,
        Refusal::GroupSource,
        Refusal::Multicast,
        Refusal::ReservedDestination,
        Refusal::Channel,
        Refusal::Payload,
        Refusal::OutputLength,
    ];

    fn from_word(word: u64) -> Option<Received> {
        match kind(word) {
            64 => Some(Received::Onward),
            65 => Some(Received::Delivered {
                length: length(word)?,
                learning: Learning::from_word(word),
                label: label(word)?,
            }),
            66 => Some(Received::OtherChannel),
            67 => Some(Received::Flushed {
                count: value(word, COUNTS)?,
            }),
            _ => None,
        }
    }

    fn word(&self) -> u64 {
        match *self {
            Received::Onward => 64,
            Received::Delivered {
                length,
                learning,
                label,
            } => {
                with_length(65, length)
                    | learning.number() << 24
                    | u64::from(label.kind()) << 32
                    | u64::from(label.number()) << 40
            }
            Received::OtherChannel => 66,
            Received::Flushed { count } => with_value(67, count),
        }
    }
}

impl Answer for ReceivedAtPort {
    const REFUSALS: &'static [Refusal] = &[
        Refusal::Settings,
        Refusal::TableLength,
        Refusal::FrameLength,
        Refusal::NotTrill,
        Refusal::NotForThisPort,
        Refusal::Cut,
        Refusal::Version,
        Refusal::HopCount,
        Refusal::Nickname,
        Refusal::Label,
        Refusal::GroupSource,
        Refusal::Multicast,
        Refusal::ReservedDestination,
        Refusal::Channel,
        Refusal::Payload,
        Refusal::OutputLength,
        Refusal::Map,
        Refusal::NoPair,
    ];

    fn from_word(word: u64) -> Option<ReceivedAtPort> {
        Received::from_word(word).map(ReceivedAtPort)
    }

    fn word(&self) -> u64 {
        self.0.word()
    }
}

impl Answer for Ingressed {
    const REFUSALS: &'static [Refusal] = &[
        Refusal::Settings,
        Refusal::FrameLength,
        Refusal::Cut,
        Refusal::HopCount,
        Refusal::Nickname,
        Refusal::Label,
        Refusal::GroupSource,
        Refusal::Multicast,
        Refusal::OutputLength,
        Refusal::Map,
        Refusal::NoPair,
    ];

    fn from_word(word: u64) -> Option<Ingressed> {
        match kind(word) {
            64 => Some(Ingressed {
                length: length(word)?,
            }),
            _ => None,
        }
    }

    fn word(&self) -> u64 {
        with_length(64, self.length)
    }
}

impl Answer for Flushed {
    const REFUSALS: &'static [Refusal] = &[Refusal::TableLength, Refusal::Payload];

    fn from_word(word: u64) -> Option<Flushed> {
        match kind(word) {
            67 => Some(Flushed {
                count: value(word, COUNTS)?,
            }),
            _ => None,
        }
    }

    fn word(&self) -> u64 {
        with_value(67, self.count)
    }
}

impl Answer for Portioned {
    const REFUSALS: &'static [Refusal] =
        &[Refusal::TableLength, Refusal::Payload, Refusal::Portion];

    fn from_word(word: u64) -> Option<Portioned> {
        let portion = Portioned {
            cleared: value(word, COUNTS)?,
            next: value(word >> 16, COUNTS)?,
            examined: value(word >> 32, COUNTS)?,
        };
        let whole = portion.cleared <= portion.examined && portion.examined <= portion.next;
        (kind(word) == 64 && whole && portion.examined > 0).then_some(portion)
    }

    fn word(&self) -> u64 {
        with_value(64, self.cleared) | u64::from(self.next) << 24 | u64::from(self.examined) << 40
    }
}

/// A place of a nickname or VLAN block: there are at most 255 of each.
fn short_place(place: u64) -> Option<u8> {
    (place <= SHORT_PLACE_MAX).then_some(place as u8)
}

/// Places as they lie in the word, with 0 in the bits of those that have none: [`decode`] sees to that.
fn cleared(word: u64) -> Option<Why> {
    let place = |lowest: u32| (word >> lowest) & u64::from(PLACE_MAX);
    let nickname = match word >> 16 & 1 {
        0 => NicknameBy::Listed(short_place(word >> 8 & 0xFF)?),
        _ => NicknameBy::Sender,
    };
    let label = match word >> 17 & 1 {
        0 => LabelBy::Block(short_place(place(18))?),
        _ => LabelBy::Tlv(place(18) as u32),
    };
    let mac = match (word >> 63, label) {
        (0, LabelBy::Tlv(_)) => MacBy::Tlv(place(40) as u32),
        // With VLAN blocks every MAC is meant.
        (0, LabelBy::Block(_)) => return None,
        _ => MacBy::Every,
    };
    Some(Why::Cleared {
        nickname,
        label,
        mac,
    })
}

impl Answer for Why {
    const REFUSALS: &'static [Refusal] =
        &[Refusal::TableLength, Refusal::Payload, Refusal::Portion];

    fn from_word(word: u64) -> Option<Why> {
        match kind(word) {
            64 => Some(Why::Free),
            65 => Some(Why::Spoilt),
            66 => Some(Why::Configured),
            67 => Some(Why::NicknameNotMeant),
            68 => Some(Why::LabelNotMeant),
            69 => Some(Why::MacNotMeant),
            70 => cleared(word),
            _ => None,
        }
    }

    fn word(&self) -> u64 {
        match *self {
            Why::Free => 64,
            Why::Spoilt => 65,
            Why::Configured => 66,
            Why::NicknameNotMeant => 67,
            Why::LabelNotMeant => 68,
            Why::MacNotMeant => 69,
            Why::Cleared {
                nickname,
                label,
                mac,
            } => {
                let nickname = match nickname {
                    NicknameBy::Listed(place) => u64::from(place) << 8,
                    NicknameBy::Sender => 1 << 16,
                };
                let label = match label {
                    LabelBy::Block(place) => u64::from(place) << 18,
                    LabelBy::Tlv(place) => 1 << 17 | u64::from(place) << 18,
                };
                let mac = match mac {
                    MacBy::Tlv(place) => u64::from(place) << 40,
                    MacBy::Every => 1 << 63,
                };
                70 | nickname | label | mac
            }
        }
    }
}

impl Answer for ReadHello {
    const REFUSALS: &'static [Refusal] = &[
        Refusal::OutputLength,
        Refusal::Hello,
        Refusal::ParametersMissing,
    ];

    fn from_word(word: u64) -> Option<ReadHello> {
        let length = word >> 8;
        let whole = length % 8 == 0 && length >= LEAST_CONTENTS;
        (kind(word) == 64 && whole).then_some(ReadHello {
            length: usize::try_from(length).ok()?,
        })
    }

    fn word(&self) -> u64 {
        with_length(64, self.length)
    }
}

impl Answer for WrittenHello {
    const REFUSALS: &'static [Refusal] = ReadHello::REFUSALS;

    fn from_word(word: u64) -> Option<WrittenHello> {
        let length = word >> 8;
        (kind(word) == 64 && length >= LEAST_HELLO).then_some(WrittenHello {
            length: usize::try_from(length).ok()?,
        })
    }

    fn word(&self) -> u64 {
        with_length(64, self.length)
    }
}

impl Answer for Compacted {
    const REFUSALS: &'static [Refusal] = &[
        Refusal::Settings,
        Refusal::FrameLength,
        Refusal::NotTrill,
        Refusal::NotForThisPort,
        Refusal::Cut,
        Refusal::Version,
        Refusal::Label,
        Refusal::Multicast,
        Refusal::OutputLength,
        Refusal::NotCompactable,
    ];

    fn from_word(word: u64) -> Option<Compacted> {
        match kind(word) {
            64 => Some(Compacted {
                length: length(word)?,
            }),
            _ => None,
        }
    }

    fn word(&self) -> u64 {
        with_length(64, self.length)
    }
}

impl Answer for Expanded {
    const REFUSALS: &'static [Refusal] = &[
        Refusal::Settings,
        Refusal::FrameLength,
        Refusal::NotTrill,
        Refusal::NotForThisPort,
        Refusal::Cut,
        Refusal::Version,
        Refusal::Label,
        Refusal::OutputLength,
        Refusal::General,
    ];

    fn from_word(word: u64) -> Option<Expanded> {
        match kind(word) {
            64 => Some(Expanded {
                length: length(word)?,
            }),
            _ => None,
        }
    }

    fn word(&self) -> u64 {
        with_length(64, self.length)
    }
}

impl Answer for Written {
    const REFUSALS: &'static [Refusal] = &[Refusal::Lists, Refusal::OutputLength];

    fn from_word(word: u64) -> Option<Written> {
        match kind(word) {
            64 => Some(Written {
                length: value(word, PAYLOADS).map(usize::from)?,
            }),
            _ => None,
        }
    }

    fn word(&self) -> u64 {
        with_length(64, self.length)
    }
}

impl Answer for Sent {
    const REFUSALS: &'static [Refusal] = Compacted::REFUSALS;

    fn from_word(word: u64) -> Option<Sent> {
        match kind(word) {
            64 => Some(Sent::Compacted {
                length: length(word)?,
            }),
            65 => Some(Sent::Itself),
            _ => None,
        }
    }

    fn word(&self) -> u64 {
        match *self {
            Sent::Compacted { length } => with_length(64, length),
            Sent::Itself => 65,
        }
    }
}

impl Answer for Found {
    const REFUSALS: &'static [Refusal] = &[Refusal::TableLength];

    fn from_word(word: u64) -> Option<Found> {
        match kind(word) {
            64 => Some(Found::Nickname(value(word, NICKNAMES)?)),
            65 => Some(Found::None),
            _ => None,
        }
    }

    fn word(&self) -> u64 {
        match *self {
            Found::Nickname(nickname) => with_value(64, nickname),
            Found::None => 65,
        }
    }
}

impl Answer for Aged {
    const REFUSALS: &'static [Refusal] = &[Refusal::TableLength];

    fn from_word(word: u64) -> Option<Aged> {
        (kind(word) == 64).then_some(Aged)
    }

    fn word(&self) -> u64 {
        64
    }
}

impl Answer for Spoilt {
    const REFUSALS: &'static [Refusal] = &[Refusal::TableLength];

    fn from_word(word: u64) -> Option<Spoilt> {
        match kind(word) {
            64 => Some(Spoilt::Slot(value(word, SLOTS)?)),
            65 => Some(Spoilt::None),
            _ => None,
        }
    }

    fn word(&self) -> u64 {
        match *self {
            Spoilt::Slot(slot) => with_value(64, slot),
            Spoilt::None => 65,
        }
    }
}

impl Answer for FreeSlot {
    const REFUSALS: &'static [Refusal] = &[Refusal::TableLength];

    fn from_word(word: u64) -> Option<FreeSlot> {
        let unpacked = (word >> 32) as u16;
        match kind(word) {
            64 => Some(FreeSlot::Slot {
                slot: value(word, SLOTS)?,
                unpacked,
            }),
            65 => Some(FreeSlot::None { unpacked }),
            _ => None,
        }
    }

    fn word(&self) -> u64 {
        match *self {
            FreeSlot::Slot { slot, unpacked } => with_value(64, slot) | u64::from(unpacked) << 32,
            FreeSlot::None { unpacked } => 65 | u64::from(unpacked) << 32,
        }
    }
}

impl Answer for Widened {
    const REFUSALS: &'static [Refusal] = &[Refusal::TableLength, Refusal::OutputLength];

    fn from_word(word: u64) -> Option<Widened> {
        let length = value(word, TABLES).map(usize::from)?;
        (kind(word) == 64 && length.is_multiple_of(RECORD_LENGTH)).then_some(Widened { length })
    }

    fn word(&self) -> u64 {
        with_length(64, self.length)
    }
}

impl Answer for Reported {
    const REFUSALS: &'static [Refusal] = &[Refusal::OutputLength];

    fn from_word(word: u64) -> Option<Reported> {
        let refused = value(word, REFUSED_REPORT..=REFUSED_REPORT);
        let length = refused.or(value(word, REPORTS)).map(usize::from)?;
        (kind(word) == 64).then_some(Reported { length })
    }

    fn word(&self) -> u64 {
        with_length(64, self.length)
    }
}
