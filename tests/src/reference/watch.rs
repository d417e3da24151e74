//! The watch (document 02, 2026-06), in signed 64-bit arithmetic.

use super::answer::{word, Pack};
use super::convert::send;
use super::refusal::Refusal;
use super::settings::Settings;

/// "seconds left and the last clock reading"
#[derive(Clone, Copy, Debug, PartialEq, Eq)]
pub struct Watch {
    pub left: i64,
    pub reading: i64,
}

/// "The clock counts seconds in 32 bits and starts again at zero after its top value"
const TURN: i64 = 4_294_967_296;

/// "each of the three never under ten seconds"; document 002 of a native frame: "at least ten seconds"
const LEAST: i64 = 10;

/// The seconds left.
struct Left(i64);

impl Pack for Left {
    fn pack(&self) -> u64 {
        64 + 256 * self.0 as u64
    }
}

impl Watch {
    /// "Each call brings the reading and first takes off the time passed, not below 0"
    fn at(self, now: i64) -> Watch {
        let difference = match now - self.reading {
            ahead if ahead >= 0 => ahead,
            behind => behind + TURN,
        };
        // "a difference of 2^31 or more is taken as a clock gone back, with no time passed and the new
        // reading kept"
        let passed = if difference >= TURN / 2 {
            0
        } else {
            difference
        };
        Watch {
            left: (self.left - passed).max(0),
            reading: now,
        }
    }
}

/// "A fresh or reset watch has no stop and the reading brought."
pub fn watch_reset(watch: &mut Watch, now: u32) -> u64 {
    *watch = Watch {
        left: 0,
        reading: i64::from(now),
    };
    word(Ok(Left(watch.left)))
}

pub fn watch_tick(watch: &mut Watch, now: u32) -> u64 {
    *watch = watch.at(i64::from(now));
    word(Ok(Left(watch.left)))
}

/// The seconds for which an event stops compaction. Kinds: 0 native frame, 1 unexpected Hello, 2 bridge
/// BPDU, 3 LLDP notice.
fn stop(kind: u32, time: i64) -> Result<i64, Refusal> {
    match kind {
        0 => Ok(LEAST),
        // "An unexpected Hello stops compaction for twice its holding time", "an LLDP notice for twice
        // its TTL"
        1 | 3 => Ok(LEAST.max(2 * time)),
        // "a bridge BPDU for four times its Hello Time (in 1/256 second, the product rounded up to whole
        // seconds)"
        2 => {
            let product = 4 * time;
            let seconds = product / 256 + i64::from(product % 256 > 0);
            Ok(LEAST.max(seconds))
        }
        _ => Err(Refusal::Settings),
    }
}

/// "A later event never shortens the stop."
pub fn watch_event(watch: &mut Watch, now: u32, kind: u32, time: u16) -> u64 {
    word(stop(kind, i64::from(time)).map(|stop| {
        let after = watch.at(i64::from(now));
        watch.left = after.left.max(stop);
        watch.reading = after.reading;
        Left(watch.left)
    }))
}

/// "While seconds are left, sending answers as with the far port's Compact off." Settings are judged as
/// they arrive; "a refused call leaves the watch as it was, reading included".
pub fn send_watched(
    settings: &Settings,
    watch: &mut Watch,
    now: u32,
    frame: &[u8],
    work: &mut [u8],
) -> u64 {
    let after = watch.at(i64::from(now));
    let stopped = Settings {
        compact: 0,
        ..*settings
    };
    let sent = match settings.compact {
        0 | 1 if after.left > 0 => send(&stopped, frame, work),
        _ => send(settings, frame, work),
    };
    if sent >= 64 {
        *watch = after;
    }
    sent
}
