//! The receiver of a TRILL edge switch: reads Ethernet frames in General and Compact Format, learns
//! which switch each address is behind, and obeys Address Flush messages (RFC 8383).
//!
//! This package is a safe wrapper over the static library, whose functions are proved to meet their
//! contracts; build.rs says where the archive is looked for. The package allocates nothing and
//! needs no standard library.
//!
//! | call | what it does |
//! |---|---|
//! | [`receive`] | reads a frame: delivers a native frame and learns its source, or carries out a flush |
//! | [`receive_port`] | the same at a port with a map between its VLANs and the campus's fine-grained labels |
//! | [`ingress`] | makes a General frame of a native one that came in at such a port |
//! | [`flush`] | carries out the payload of an Address Flush |
//! | [`flush_portion`] | carries out a portion of it, at most so many slots |
//! | [`flush_vlan_only`] | carries it out as the VLAN-only model does |
//! | [`why`] | says why a flush clears the record of a slot, or leaves it |
//! | [`compact`], [`expand`] | convert between General and Compact Format |
//! | [`send`] | chooses what to send to a far port |
//! | [`send_watched`], [`Watch`] | the same at a port that stops compacting when the link looks shared |
//! | [`lookup`], [`age`], [`spoilt`], [`free_slot`] | the address table |
//! | [`report`] | writes the morning report of a table |
//! | [`hello_read`], [`hello_write`] | read the payload of a Smart-Hello into its contents, and write one |
//! | [`widen`] | makes an older table, of records of 14 bytes, one of 15 |
//! | [`write_flush`] | writes the payload of an Address Flush |
//!
//! Each takes any bytes. A [`Refusal`] has changed nothing; an area keeps its bytes behind what a
//! call writes. [`raw`] has the calls with any numbers too.
//!
//! The address table is a lent area of 1 to 4,096 records of 15 bytes; all zero is free.
//!
//! ```
//! use shinglebar::{Found, Label, Learning, Mac, Received, Settings};
//!
//! let settings = Settings {
//!     port: Mac([0x02, 0, 0, 0, 0, 0xA1]),
//!     inner: Mac([0x02, 0, 0, 0, 0, 0xB1]),
//!     nickname: 0x0102,
//!     compact: true,
//!     confidence: 20,
//!     seconds: 0,
//!     ..Settings::default()
//! };
//! // Compact Format: inner addresses, VLAN 10, TRILL header from 1234 to 0102, content.
//! let frame = [
//!     0x02, 0, 0, 0, 0, 0x0D, 0x02, 0, 0, 0, 0, 0x01, 0x81, 0x00, 0x00, 0x0A, 0x22, 0xF3, 0x00,
//!     0x05, 0x01, 0x02, 0x12, 0x34, 0x08, 0x00, 0x45, 0x00,
//! ];
//! let mut table = [0; 4 * shinglebar::RECORD_LENGTH];
//! let mut out = [0; shinglebar::FRAME_LENGTH_MAX];
//! let delivered = Received::Delivered {
//!     length: 16,
//!     learning: Learning::Learned,
//!     label: Label::Vlan(10),
//! };
//! assert_eq!(shinglebar::receive(&settings, &frame, &mut table, &mut out), Ok(delivered));
//! assert_eq!(out[..16], [2, 0, 0, 0, 0, 0x0D, 2, 0, 0, 0, 0, 1, 0x08, 0x00, 0x45, 0x00]);
//!
//! let source = Mac([0x02, 0, 0, 0, 0, 0x01]);
//! let found = shinglebar::lookup(Label::Vlan(10), source, &table);
//! assert_eq!(found, Ok(Found::Nickname(0x1234)));
//! ```

#![no_std]
#![deny(unsafe_code)]
#![warn(missing_docs)]

mod answer;
#[allow(unsafe_code)]
pub mod exports;
mod hello;
mod hello_write;
pub mod raw;
mod refusal;
mod values;
mod watch;
mod write;

pub use answer::{
    decode, encode, Aged, Answer, Compacted, Expanded, Flushed, Found, FreeSlot, Ingressed,
    LabelBy, Learning, MacBy, NicknameBy, Portioned, ReadHello, Received, ReceivedAtPort, Reported,
    Sent, Spoilt, UnknownWord, Why, Widened, Written, WrittenHello,
};
pub use hello::{hello_read, Contents, NicknameRecord, Nicknames, SmartMac, Trees};
pub use hello_write::{hello_write, ContentsWriter};
pub use refusal::Refusal;
pub use values::{CampusLabel, Encapsulation, Label, Mac, Outer, Pair, PortVlan, Settings};
pub use watch::{send_watched, Event, Left, Watch};
pub use write::{write_flush, Asked};

/// The version of the package, which is that of the library's header.
pub const VERSION: &str = env!("CARGO_PKG_VERSION");

/// The bytes of a record of the address table.
pub const RECORD_LENGTH: usize = 15;
/// The bytes of the longest table.
pub const TABLE_LENGTH_MAX: usize = 61_440;
/// The bytes of a record of an older table, and of the longest one: what [`widen`] reads.
pub const OLD_RECORD_LENGTH: usize = 14;
/// The bytes of the longest older table.
pub const OLD_TABLE_LENGTH_MAX: usize = 57_344;
/// The bytes of the longest frame: an output area in which every result has room.
pub const FRAME_LENGTH_MAX: usize = 9216;
/// The bytes of a working area in which every compaction has room.
pub const COMPACT_LENGTH_MAX: usize = 9204;
/// The bytes of the longest report: an output area in which every one has room.
pub const REPORT_LENGTH_MAX: usize = 36_880;
/// The highest place of a TLV that [`why`] shows: only payloads of over 8 MB have a higher one.
pub const PLACE_MAX: u32 = 4_194_303;
/// The bytes of the longest payload that is written: an output area in which every one has room.
pub const WRITTEN_LENGTH_MAX: usize = 6172;

/// The answer of a word that the library gave. It gives no others: a panic here means that the
/// archive and this package do not belong together.
#[inline]
fn answered<A: Answer>(word: u64) -> Result<A, Refusal> {
    match decode(word) {
        Ok(outcome) => outcome,
        Err(unknown) => panic!("libshinglebar.a: {unknown}"),
    }
}

/// Reads one Ethernet frame without FCS at a port with these settings: delivers a native frame to
/// the output area and learns its source, or carries out a flush.
///
/// ```
/// use shinglebar::{Mac, Refusal, Settings};
///
/// let settings = Settings {
///     port: Mac([0x02, 0, 0, 0, 0, 0xA1]),
///     inner: Mac([0x02, 0, 0, 0, 0, 0xB1]),
///     nickname: 0x0102,
///     compact: false,
///     confidence: 20,
///     seconds: 0,
///     ..Settings::default()
/// };
/// let mut table = [0; shinglebar::RECORD_LENGTH];
/// let refused = shinglebar::receive(&settings, &[0xFF; 60], &mut table, &mut []);
/// assert_eq!(refused, Err(Refusal::NotForThisPort));
/// ```
#[inline]
pub fn receive(
    settings: &Settings,
    frame: &[u8],
    table: &mut [u8],
    out: &mut [u8],
) -> Result<Received, Refusal> {
    answered(raw::receive(&settings.into(), frame, table, out))
}

/// Reads one Ethernet frame at a port with these settings and this map: as [`receive`], but a
/// fine-grained frame is delivered with a tag of the VLAN that its label has on this port. With an
/// empty map it is [`receive`].
///
/// ```
/// use shinglebar::{CampusLabel, Encapsulation, Ingressed, Label, Learning, Mac, Pair, PortVlan};
/// use shinglebar::{Received, Refusal, Settings};
///
/// let settings = Settings {
///     port: Mac([0x02, 0, 0, 0, 0, 0xA1]),
///     inner: Mac([0x02, 0, 0, 0, 0, 0xB1]),
///     nickname: 0x0102,
///     ..Settings::default()
/// };
/// // VLAN 10 of both ports is the campus's fine-grained label ABCDEF.
/// let map = [Pair::new(PortVlan(10), CampusLabel(0xABCDEF))];
/// let native = [
///     0x02, 0, 0, 0, 0, 0x0D, 0x02, 0, 0, 0, 0, 0x01, 0x81, 0x00, 0x60, 0x0A, 0x08, 0x00, 0x45, 0x00,
/// ];
/// let given = Encapsulation {
///     outer_destination: settings.port,
///     outer_source: Mac([0x02, 0, 0, 0, 0, 0xB2]),
///     multicast: false,
///     hop_count: 5,
///     egress: 0x0102,
///     ingress: 0x1234,
/// };
/// let mut general = [0; 44];
/// let ingressed = shinglebar::ingress(&settings, &map, &given, &native, &mut general);
/// assert_eq!(ingressed, Ok(Ingressed { length: 44 }));
///
/// let mut table = [0; shinglebar::RECORD_LENGTH];
/// let mut out = [0; 20];
/// let delivered = Received::Delivered {
///     length: 20,
///     learning: Learning::Learned,
///     label: Label::Fine(0xABCDEF),
/// };
/// let read = shinglebar::receive_port(&settings, &map, &general, &mut table, &mut out);
/// assert_eq!((read, out), (Ok(delivered), native));
///
/// let other = [Pair::new(PortVlan(10), CampusLabel(0xABCDEE))];
/// let read = shinglebar::receive_port(&settings, &other, &general, &mut table, &mut out);
/// assert_eq!(read, Err(Refusal::NoPair));
/// ```
#[inline]
pub fn receive_port(
    settings: &Settings,
    map: &[Pair],
    frame: &[u8],
    table: &mut [u8],
    out: &mut [u8],
) -> Result<Received, Refusal> {
    let map = raw::map_bytes(map);
    answered(raw::receive_port(&settings.into(), map, frame, table, out))
        .map(|ReceivedAtPort(received)| received)
}

/// Makes a General frame of a native one that came in, tagged, at a port with these settings and this
/// map: its VLAN becomes the fine-grained label that it has on the campus.
///
/// ```
/// use shinglebar::{CampusLabel, Encapsulation, Mac, Pair, PortVlan, Refusal, Settings};
///
/// let settings = Settings {
///     port: Mac([0x02, 0, 0, 0, 0, 0xA1]),
///     inner: Mac([0x02, 0, 0, 0, 0, 0xB1]),
///     nickname: 0x0102,
///     ..Settings::default()
/// };
/// let given = Encapsulation {
///     outer_destination: Mac([0x02, 0, 0, 0, 0, 0xA2]),
///     outer_source: settings.port,
///     multicast: false,
///     hop_count: 5,
///     egress: 0x1234,
///     ingress: 0x0102,
/// };
/// let untagged = [0x02, 0, 0, 0, 0, 0x0D, 0x02, 0, 0, 0, 0, 0x01, 0x08, 0x00, 0x45, 0x00];
/// let twice = [Pair::new(PortVlan(10), CampusLabel(7)), Pair::new(PortVlan(11), CampusLabel(7))];
/// let mut out = [0; 64];
/// let refused = shinglebar::ingress(&settings, &twice, &given, &untagged, &mut out);
/// assert_eq!(refused, Err(Refusal::Map));
/// let refused = shinglebar::ingress(&settings, &twice[..1], &given, &untagged, &mut out);
/// assert_eq!(refused, Err(Refusal::Label));
/// ```
#[inline]
pub fn ingress(
    settings: &Settings,
    map: &[Pair],
    given: &Encapsulation,
    frame: &[u8],
    out: &mut [u8],
) -> Result<Ingressed, Refusal> {
    let map = raw::map_bytes(map);
    answered(raw::ingress(
        &settings.into(),
        map,
        &given.into(),
        frame,
        out,
    ))
}

/// Carries out the payload of an Address Flush that came with this ingress nickname; one outside
/// 0001 to FFBF matches no record.
///
/// ```
/// use shinglebar::{Flushed, Refusal};
///
/// // Learned: VLAN 10, 02-00-00-00-00-01, nickname 1234.
/// let mut table = [
///     0x40, 0x00, 0x01, 0x40, 0x40, 0x00, 0x00, 0x00, 0x00, 0x22, 0x46, 0x82, 0x81, 0x2C, 0x00,
/// ];
/// // One nickname, 1234; one block, the VLANs 10 to 12.
/// let payload = [0x01, 0x12, 0x34, 0x01, 0x00, 0x0A, 0x00, 0x0C];
/// let cut = &payload[..7];
/// assert_eq!(shinglebar::flush(0x0102, cut, &mut table), Err(Refusal::Payload));
/// assert_eq!(shinglebar::flush(0x0102, &payload, &mut table), Ok(Flushed { count: 1 }));
/// assert_eq!(table, [0; shinglebar::RECORD_LENGTH]);
/// ```
#[inline]
pub fn flush(ingress: u16, payload: &[u8], table: &mut [u8]) -> Result<Flushed, Refusal> {
    answered(raw::flush(u32::from(ingress), payload, table))
}

/// Carries out the payload of an Address Flush as the VLAN-only model does: of the TLVs it knows the types
/// 1, 2 and 6 and skips all others by their length, so that every MAC is meant. What [`flush`] accepts it
/// accepts, and of VLAN records it clears at least those that [`flush`] clears.
///
/// ```
/// use shinglebar::{Flushed, Refusal};
///
/// // All labels, and a list of MACs of one byte: corrupt to the full model.
/// let payload = [0x00, 0x00, 0x06, 0x00, 0x07, 0x01, 0x00];
/// let mut table = [0; shinglebar::RECORD_LENGTH];
/// assert_eq!(shinglebar::flush(0x1234, &payload, &mut table), Err(Refusal::Payload));
/// let flushed = shinglebar::flush_vlan_only(0x1234, &payload, &mut table);
/// assert_eq!(flushed, Ok(Flushed { count: 0 }));
/// ```
#[inline]
pub fn flush_vlan_only(ingress: u16, payload: &[u8], table: &mut [u8]) -> Result<Flushed, Refusal> {
    answered(raw::flush_vlan_only(u32::from(ingress), payload, table))
}

/// Carries out a portion of an Address Flush: examines at most `k` slots from `slot` on, and says
/// where to go on. From slot 0 to the last, with the same message and nothing else touching the
/// table, the portions clear what [`flush`] clears. Frames may be read in between.
///
/// ```
/// use shinglebar::{Portioned, Refusal};
///
/// // The VLANs 10 to 12 of the sender, in a table of five slots.
/// let payload = [0x00, 0x01, 0x00, 0x0A, 0x00, 0x0C];
/// let mut table = [0; 5 * shinglebar::RECORD_LENGTH];
/// let mut slot = 0;
/// let mut examined = 0;
/// while usize::from(slot) < table.len() / shinglebar::RECORD_LENGTH {
///     let portion = shinglebar::flush_portion(0x1234, &payload, slot, 2, &mut table)?;
///     slot = portion.next;
///     examined += portion.examined;
///     // frames are read here
/// }
/// assert_eq!(examined, 5);
/// let past = shinglebar::flush_portion(0x1234, &payload, slot, 2, &mut table);
/// assert_eq!(past, Err(Refusal::Portion));
/// # Ok::<(), Refusal>(())
/// ```
#[inline]
pub fn flush_portion(
    ingress: u16,
    payload: &[u8],
    slot: u16,
    k: u16,
    table: &mut [u8],
) -> Result<Portioned, Refusal> {
    answered(raw::flush_portion(
        u32::from(ingress),
        payload,
        u64::from(slot),
        u64::from(k),
        table,
    ))
}

/// Why an Address Flush clears the record of a slot, or leaves it: the first reason that applies, and of a
/// record that is cleared what brings its nickname, its label and its MAC. Nothing is changed.
///
/// ```
/// use shinglebar::{LabelBy, MacBy, NicknameBy, Refusal, Why};
///
/// // Learned: VLAN 10, 02-00-00-00-00-01, nickname 1234; and a free slot.
/// let mut table = [0; 2 * shinglebar::RECORD_LENGTH];
/// table[..14].copy_from_slice(&[
///     0x40, 0x00, 0x01, 0x40, 0x40, 0x00, 0x00, 0x00, 0x00, 0x22, 0x46, 0x82, 0x81, 0x2C,
/// ]);
/// // Two nicknames; two blocks, the VLANs 20 to 29 and 10 to 12.
/// let payload = [
///     0x02, 0x56, 0x78, 0x12, 0x34, 0x02, 0x00, 0x14, 0x00, 0x1D, 0x00, 0x0A, 0x00, 0x0C,
/// ];
/// let cleared = Why::Cleared {
///     nickname: NicknameBy::Listed(1),
///     label: LabelBy::Block(1),
///     mac: MacBy::Every,
/// };
/// assert_eq!(shinglebar::why(0x0102, &payload, 0, &table), Ok(cleared));
/// assert_eq!(shinglebar::why(0x0102, &payload, 1, &table), Ok(Why::Free));
/// assert_eq!(shinglebar::why(0x0102, &payload, 2, &table), Err(Refusal::Portion));
/// // No nickname is listed, and the sender is another.
/// let other = shinglebar::why(0x0102, &[0x00, 0x00, 0x06, 0x00], 0, &table);
/// assert_eq!(other, Ok(Why::NicknameNotMeant));
/// ```
#[inline]
pub fn why(ingress: u16, payload: &[u8], slot: u16, table: &[u8]) -> Result<Why, Refusal> {
    answered(raw::why(
        u32::from(ingress),
        payload,
        u64::from(slot),
        table,
    ))
}

/// Compacts a General frame for a far port with these settings.
#[inline]
pub fn compact(far: &Settings, frame: &[u8], out: &mut [u8]) -> Result<Compacted, Refusal> {
    answered(raw::compact(&far.into(), frame, out))
}

/// Expands a Compact frame for a far port with these settings.
///
/// ```
/// use shinglebar::{Compacted, Expanded, Mac, Outer, Settings};
///
/// let far = Settings {
///     port: Mac([0x02, 0, 0, 0, 0, 0xA1]),
///     inner: Mac([0x02, 0, 0, 0, 0, 0xB1]),
///     nickname: 0x0102,
///     compact: true,
///     confidence: 20,
///     seconds: 0,
///     ..Settings::default()
/// };
/// let outer = Outer {
///     source: Mac([0x02, 0, 0, 0, 0, 0xB2]),
///     tag: Some(5),
/// };
/// let frame = [
///     0x02, 0, 0, 0, 0, 0x0D, 0x02, 0, 0, 0, 0, 0x01, 0x81, 0x00, 0x00, 0x0A, 0x22, 0xF3, 0x00,
///     0x05, 0x01, 0x02, 0x12, 0x34, 0x08, 0x00, 0x45, 0x00,
/// ];
/// let mut general = [0; 44];
/// let expanded = shinglebar::expand(&far, &outer, &frame, &mut general);
/// assert_eq!(expanded, Ok(Expanded { length: 44 }));
///
/// let mut again = [0; 28];
/// let compacted = shinglebar::compact(&far, &general, &mut again);
/// assert_eq!(compacted, Ok(Compacted { length: 28 }));
/// assert_eq!(again, frame);
/// ```
#[inline]
pub fn expand(
    far: &Settings,
    outer: &Outer,
    frame: &[u8],
    out: &mut [u8],
) -> Result<Expanded, Refusal> {
    answered(raw::expand(&far.into(), &outer.into(), frame, out))
}

/// Chooses what to send to a far port with these settings: the compacted frame, or the frame itself.
/// [`Sent::bytes`] gives its bytes. In the working area every compacted frame has room, so that
/// [`Refusal::OutputLength`] is not answered.
#[inline]
pub fn send(
    far: &Settings,
    frame: &[u8],
    work: &mut [u8; COMPACT_LENGTH_MAX],
) -> Result<Sent, Refusal> {
    answered(raw::send(&far.into(), frame, work))
}

/// The nickname in the lowest slot with the label and address.
#[inline]
pub fn lookup(label: Label, mac: Mac, table: &[u8]) -> Result<Found, Refusal> {
    answered(raw::lookup(
        label.kind(),
        label.number(),
        mac.number(),
        table,
    ))
}

/// Frees the learned records with at most so many seconds; other learned ones lose them.
#[inline]
pub fn age(seconds: u16, table: &mut [u8]) -> Result<Aged, Refusal> {
    answered(raw::age(seconds, table))
}

/// The lowest spoilt slot.
///
/// ```
/// use shinglebar::{Refusal, Spoilt};
///
/// // State 0 with another bit set.
/// let mut table = [0; 2 * shinglebar::RECORD_LENGTH];
/// assert_eq!(shinglebar::spoilt(&table), Ok(Spoilt::None));
/// table[2 * shinglebar::RECORD_LENGTH - 1] = 1;
/// assert_eq!(shinglebar::spoilt(&table), Ok(Spoilt::Slot(1)));
/// assert_eq!(shinglebar::spoilt(&table[1..]), Err(Refusal::TableLength));
/// ```
#[inline]
pub fn spoilt(table: &[u8]) -> Result<Spoilt, Refusal> {
    answered(raw::spoilt(table))
}

/// The lowest free slot, with the number of records that the search unpacked: those of state 0 up to it.
///
/// ```
/// use shinglebar::{FreeSlot, Refusal, RECORD_LENGTH};
///
/// // Slot 0 has state 0 with another bit set, slot 1 is free.
/// let mut table = [0; 2 * RECORD_LENGTH];
/// table[1] = 1;
/// assert_eq!(shinglebar::free_slot(&table), Ok(FreeSlot::Slot { slot: 1, unpacked: 2 }));
/// let full = &table[..RECORD_LENGTH];
/// assert_eq!(shinglebar::free_slot(full), Ok(FreeSlot::None { unpacked: 1 }));
/// assert_eq!(shinglebar::free_slot(&table[1..]), Err(Refusal::TableLength));
/// ```
#[inline]
pub fn free_slot(table: &[u8]) -> Result<FreeSlot, Refusal> {
    answered(raw::free_slot(table))
}

/// Writes an older table, of records of 14 bytes, as one of records of 15: each record with a zero byte after it.
///
/// ```
/// use shinglebar::{Refusal, Widened};
///
/// // Learned: VLAN 10, 02-00-00-00-00-01, nickname 1234.
/// let old = [
///     0x40, 0x00, 0x01, 0x40, 0x40, 0x00, 0x00, 0x00, 0x00, 0x22, 0x46, 0x82, 0x81, 0x2C,
/// ];
/// let mut table = [0xFF; shinglebar::RECORD_LENGTH];
/// assert_eq!(shinglebar::widen(&old, &mut table[..14]), Err(Refusal::OutputLength));
/// assert_eq!(shinglebar::widen(&old, &mut table), Ok(Widened { length: 15 }));
/// assert_eq!((&table[..14], table[14]), (&old[..], 0));
/// ```
#[inline]
pub fn widen(old: &[u8], out: &mut [u8]) -> Result<Widened, Refusal> {
    answered(raw::widen(old, out))
}

/// Writes the morning report of a table as text: a line for each nickname with learned or configured records, rising, with the two
/// counts; then the free and the spoilt slots. A table of a bad length is no refusal: its report is the line `refused 2`.
///
/// ```
/// use shinglebar::{Refusal, Reported};
///
/// // Learned: VLAN 10, 02-00-00-00-00-01, nickname 1234.
/// let table = [
///     0x40, 0x00, 0x01, 0x40, 0x40, 0x00, 0x00, 0x00, 0x00, 0x22, 0x46, 0x82, 0x81, 0x2C, 0x00,
/// ];
/// let mut out = [0; shinglebar::REPORT_LENGTH_MAX];
/// let reported = shinglebar::report(&table, &mut out)?;
/// assert_eq!(&out[..reported.length], b"1234 1 0\nfree 0\nspoilt 0\n");
///
/// let reported = shinglebar::report(&table[1..], &mut out)?;
/// assert_eq!(&out[..reported.length], b"refused 2\n");
/// assert_eq!(shinglebar::report(&table, &mut out[..24]), Err(Refusal::OutputLength));
/// # Ok::<(), Refusal>(())
/// ```
#[inline]
pub fn report(table: &[u8], out: &mut [u8]) -> Result<Reported, Refusal> {
    answered(raw::report(table, out))
}

#[cfg(test)]
mod tests {
    use super::*;

    #[test]
    fn a_word_of_the_call_is_its_answer() {
        assert_eq!(answered(67), Ok(Flushed { count: 0 }));
        assert_eq!(answered::<Flushed>(15), Err(Refusal::Payload));
    }

    #[test]
    #[should_panic(expected = "libshinglebar.a: 0x0000000000000044 is no answer of this call")]
    fn an_unknown_word_is_not_taken_for_an_answer() {
        let _ = answered::<Received>(68);
    }
}
