//! Reading frames: delivery, learning, onward, refusals.

use crate::baseline;
use crate::buffer::Buffer;
use crate::inputs::{
    entries, last_free, mac, table, Entry, Format, Frame, Label, Settings, DEFAULT_SECONDS,
    LEARNED, RECORD, SETTINGS, SIZES, SLOTS,
};
use crate::library::{self, Receive};
use crate::measure::{Areas, Lent, Pair};
use crate::random::Random;
use crate::report::{Axis, Curve, Report};

const RECEIVE: Pair<Receive> = Pair {
    ours: library::shinglebar_receive,
    baseline: baseline::receive,
};

const ONWARD: u64 = 64;

/// What learning did, as the word of a delivery says it.
#[derive(Clone, Copy)]
enum Learning {
    Learned = 0,
    Refreshed = 1,
    Full = 3,
}

/// A frame, and tables that hold its source, do not know it, or have room for it.
struct Rows<'a> {
    report: &'a Report,
    frame: Frame,
    first: Vec<u8>,
    last: Vec<u8>,
    full: Vec<u8>,
    last_free: [Vec<u8>; 3],
}

const FORMATS: [(&str, Format); 2] = [("General", Format::General), ("Compact", Format::Compact)];
const LENGTHS: [(&str, usize); 3] = [("64", 64), ("1,500", 1500), ("9,216", 9216)];

pub fn run(report: &Report) {
    let rows = Rows::new(report);
    rows.learning();
    rows.delivery();
    rows.onward();
    rows.refused();
    rows.growth();
}

impl Rows<'_> {
    /// The record of the source holds what is learned already, so that refreshing it changes nothing
    /// and the call can be repeated.
    fn new(report: &Report) -> Rows<'_> {
        let mut random = Random::new(3);
        let source = Entry {
            state: LEARNED,
            label: Label::any_vlan(&mut random),
            mac: mac(&mut random),
            nickname: 0x1607,
            confidence: SETTINGS.confidence as u8,
            seconds: DEFAULT_SECONDS,
            multihomed: false,
        };
        let others = entries(&mut random);
        let with_source_at = |slot: usize| {
            let mut entries = others.clone();
            entries[slot] = source;
            table(&entries)
        };
        let full = table(&others);
        let last_free = [0, 1, SLOTS - 1].map(|spoilt| last_free(&others, spoilt));
        Rows {
            report,
            frame: Frame::from(&source),
            first: with_source_at(0),
            last: with_source_at(SLOTS - 1),
            full,
            last_free,
        }
    }

    /// With the shortest frames, of 2 bytes of content.
    fn learning(&self) {
        let deliver = |name: &str, table: &[u8], learning: Learning| {
            self.deliver(name, Format::General, 38, table, learning);
        };
        deliver(
            "learning: refresh at the last of 4,096",
            &self.last,
            Learning::Refreshed,
        );
        deliver(
            "learning: learn into the last free of 4,096",
            &self.last_free[0],
            Learning::Learned,
        );
        deliver(
            "learning: learn into the last free of 4,096, one spoilt of state 0",
            &self.last_free[1],
            Learning::Learned,
        );
        deliver(
            "learning: learn into the last free of 4,096, 4,095 spoilt of state 0",
            &self.last_free[2],
            Learning::Learned,
        );
        deliver("learning: full", &self.full, Learning::Full);
    }

    fn delivery(&self) {
        for (format_name, format) in FORMATS {
            for (length_name, length) in LENGTHS {
                for (name, table, learning) in [
                    ("source at slot 0", &self.first, Learning::Refreshed),
                    ("source at the last slot", &self.last, Learning::Refreshed),
                    ("source unknown, full", &self.full, Learning::Full),
                ] {
                    let name = format!("receive: {format_name}, {length_name} bytes, {name}");
                    self.deliver(&name, format, length, table, learning);
                }
            }
        }
    }

    fn onward(&self) {
        let onward = Frame {
            egress: 0x3456,
            ..self.frame
        };
        for (name, format) in FORMATS {
            let bytes = onward.bytes(format, 1500);
            let name = format!("receive: {name}, 1,500 bytes, onward");
            one(self.report, &name, SETTINGS, &bytes, &self.first, ONWARD);
        }
    }

    fn refused(&self) {
        let name = "receive: refused with 5, not for this port";
        let off = Settings {
            compact: 0,
            ..SETTINGS
        };
        let bytes = self.frame.bytes(Format::Compact, 1500);
        one(self.report, name, off, &bytes, &self.first, 5);

        let name = "receive: refused with 4, not TRILL";
        let mut bytes = self.frame.bytes(Format::General, 1500);
        bytes[12..14].copy_from_slice(&[0x08, 0x00]);
        one(self.report, name, SETTINGS, &bytes, &self.first, 4);
    }

    fn deliver(&self, name: &str, format: Format, length: usize, table: &[u8], learning: Learning) {
        let bytes = self.frame.bytes(format, length);
        let delivered = self.delivered(format, length, learning);
        one(self.report, name, SETTINGS, &bytes, table, delivered);
    }

    /// The word of a delivery.
    fn delivered(&self, format: Format, length: usize, learning: Learning) -> u64 {
        // What the native frame does not have: 22F3, header and label, and the outer addresses.
        let native = match format {
            Format::General => length - 24,
            Format::Compact => length - 12,
        };
        65 | (native as u64) << 8 | (learning as u64) << 24 | u64::from(self.frame.vlan) << 40
    }

    /// A source that is not known, and a full table.
    fn growth(&self) {
        let bytes = self.frame.bytes(Format::General, 64);
        let frame: &[u8] = &Buffer::input(&bytes);
        let delivered = self.delivered(Format::General, 64, Learning::Full);
        let curve = Curve {
            name: "receive: source unknown, full",
            axis: Axis::Slots,
        };
        for slots in SIZES {
            let start = Areas::new(&self.full[..slots * RECORD], &[0xEE; 9216]);
            self.report.point(
                curve,
                slots,
                RECEIVE,
                start,
                |word| word == delivered,
                |receive, lent| call(receive, SETTINGS, frame, lent),
            );
        }
    }
}

fn one(report: &Report, name: &str, settings: Settings, bytes: &[u8], table: &[u8], expected: u64) {
    let frame: &[u8] = &Buffer::input(bytes);
    report.row(
        name,
        RECEIVE,
        Areas::new(table, &[0xEE; 9216]),
        |word| word == expected,
        |receive, lent| call(receive, settings, frame, lent),
    );
}

#[inline(always)]
fn call(receive: Receive, settings: Settings, frame: &[u8], lent: &mut Lent) -> u64 {
    // SAFETY: the areas do not overlap and are as long as said.
    unsafe {
        receive(
            settings.port,
            settings.inner,
            settings.nickname,
            settings.compact,
            settings.confidence,
            settings.seconds,
            frame.as_ptr(),
            frame.len(),
            lent.table.as_mut_ptr(),
            lent.table.len(),
            lent.out.as_mut_ptr(),
            lent.out.len(),
        )
    }
}
