//! The watch of a sending port: when the link looks shared, compaction stops for a time.

use crate::{answered, raw, Answer, Refusal, Sent, Settings, COMPACT_LENGTH_MAX};

/// The seconds for which compaction is still stopped, and the reading of the clock at which that was so.
/// Any two numbers are a watch.
///
/// Each call brings the clock's reading in seconds, which starts again at 0 after its top value, and
/// first takes off the time passed. A difference of 2^31 or more is a clock gone back: no time has
/// passed, and the new reading is kept.
///
/// ```
/// use shinglebar::{Event, Watch};
///
/// let mut watch = Watch::new(0xFFFF_FFF0);
/// // Four times 641/256 seconds, rounded up.
/// assert_eq!(watch.report(0xFFFF_FFF0, Event::BridgeBpdu { hello_time: 641 }), 11);
/// // A shorter stop does not shorten it; 4 seconds later 7 are left, and a native frame stops for 10.
/// assert_eq!(watch.tick(0xFFFF_FFF4), 7);
/// assert_eq!(watch.report(0xFFFF_FFF4, Event::NativeFrame), 10);
/// assert_eq!(watch.tick(0x0000_0000), 0);
/// ```
#[derive(Clone, Copy, Debug, PartialEq, Eq, Hash)]
#[repr(C)]
pub struct Watch {
    /// The seconds left.
    pub left: u32,
    /// The last reading of the clock.
    pub reading: u32,
}

/// What says that a link is shared, with the time that it stops compaction by; never under ten seconds.
#[derive(Clone, Copy, Debug, PartialEq, Eq, Hash)]
pub enum Event {
    /// A frame of a station: ten seconds.
    NativeFrame,
    /// A TRILL Hello other than the neighbour's: twice its holding time.
    UnexpectedHello {
        /// In seconds.
        holding_time: u16,
    },
    /// A bridge BPDU: four times its Hello Time, rounded up.
    BridgeBpdu {
        /// In 1/256 second.
        hello_time: u16,
    },
    /// An LLDP message of a bridge, router or station: twice its TTL.
    LldpNotice {
        /// In seconds.
        ttl: u16,
    },
}

impl Event {
    /// Its number at the C boundary.
    pub const fn kind(self) -> u32 {
        match self {
            Event::NativeFrame => 0,
            Event::UnexpectedHello { .. } => 1,
            Event::BridgeBpdu { .. } => 2,
            Event::LldpNotice { .. } => 3,
        }
    }

    /// Its time at the C boundary; that of a native frame is not read.
    pub const fn time(self) -> u16 {
        match self {
            Event::NativeFrame => 0,
            Event::UnexpectedHello { holding_time } => holding_time,
            Event::BridgeBpdu { hello_time } => hello_time,
            Event::LldpNotice { ttl } => ttl,
        }
    }
}

/// What a reset, a tick and an event answer.
#[derive(Clone, Copy, Debug, PartialEq, Eq, Hash)]
pub struct Left {
    /// The seconds left.
    pub seconds: u32,
}

impl Answer for Left {
    const REFUSALS: &'static [Refusal] = &[Refusal::Settings];

    fn from_word(word: u64) -> Option<Left> {
        let seconds = (word >> 8) as u32;
        (word as u8 == 64).then_some(Left { seconds })
    }

    fn word(&self) -> u64 {
        64 | u64::from(self.seconds) << 8
    }
}

/// The seconds of an answer that is no refusal.
fn left(word: u64) -> u32 {
    match answered::<Left>(word) {
        Ok(left) => left.seconds,
        Err(refusal) => unreachable!("{refusal}"),
    }
}

impl Watch {
    /// A fresh watch: no stop, and this reading.
    pub const fn new(now: u32) -> Watch {
        Watch {
            left: 0,
            reading: now,
        }
    }

    /// No stop, and this reading.
    pub fn reset(&mut self, now: u32) {
        left(raw::watch_reset(self, now));
    }

    /// Takes off the time passed; the seconds left.
    pub fn tick(&mut self, now: u32) -> u32 {
        left(raw::watch_tick(self, now))
    }

    /// Reports an event: the larger of what is left and the event's stop is left.
    pub fn report(&mut self, now: u32, event: Event) -> u32 {
        left(raw::watch_event(self, now, event.kind(), event.time()))
    }
}

/// [`send`](crate::send) at a port with a watch: while seconds are left it answers as with the far
/// port's Compact off. A refusal leaves the watch as it was.
///
/// ```
/// use shinglebar::{send_watched, Event, Mac, Sent, Settings, Watch, COMPACT_LENGTH_MAX};
///
/// let far = Settings {
///     port: Mac([0x02, 0, 0, 0, 0, 0xA1]),
///     inner: Mac([0x02, 0, 0, 0, 0, 0xB1]),
///     nickname: 0x0102,
///     compact: true,
///     confidence: 20,
///     seconds: 0,
///     ..Settings::default()
/// };
/// let frame = [
///     0x02, 0, 0, 0, 0, 0xA1, 0x02, 0, 0, 0, 0, 0xB2, 0x22, 0xF3, 0x00, 0x05, 0x01, 0x02, 0x12,
///     0x34, 0x02, 0, 0, 0, 0, 0x0D, 0x02, 0, 0, 0, 0, 0x01, 0x81, 0x00, 0x00, 0x0A, 0x08, 0x00,
///     0x45, 0x00,
/// ];
/// let mut work = [0; COMPACT_LENGTH_MAX];
/// let mut watch = Watch::new(100);
/// watch.report(100, Event::NativeFrame);
/// let mut sent = |now| send_watched(&far, &mut watch, now, &frame, &mut work);
/// assert_eq!(sent(109), Ok(Sent::Itself));
/// assert_eq!(sent(110), Ok(Sent::Compacted { length: 28 }));
/// ```
#[inline]
pub fn send_watched(
    far: &Settings,
    watch: &mut Watch,
    now: u32,
    frame: &[u8],
    work: &mut [u8; COMPACT_LENGTH_MAX],
) -> Result<Sent, Refusal> {
    answered(raw::send_watched(&far.into(), watch, now, frame, work))
}
