//! Compacting, expanding, sending.

use crate::baseline;
use crate::buffer::Buffer;
use crate::inputs::{Format, Frame, Settings, SETTINGS};
use crate::library::{self, Compact, Expand};
use crate::measure::{Areas, Pair};
use crate::report::Report;

const COMPACT: Pair<Compact> = Pair {
    ours: library::shinglebar_compact,
    baseline: baseline::compact,
};

const EXPAND: Pair<Expand> = Pair {
    ours: library::shinglebar_expand,
    baseline: baseline::expand,
};

const SEND: Pair<Compact> = Pair {
    ours: library::shinglebar_send,
    baseline: baseline::send,
};

const FRAME: Frame = Frame {
    inner_destination: 0x0200_0000_000D,
    inner_source: 0x001B_2104_0506,
    vlan: 10,
    egress: 0x2345,
    ingress: 0x1234,
};

const ITSELF: u64 = 65;

/// The lengths of General frames.
const LENGTHS: [(&str, usize); 3] = [("64", 64), ("1,500", 1500), ("9,216", 9216)];

/// The word of a result of this length.
fn written(length: usize) -> u64 {
    64 | (length as u64) << 8
}

pub fn run(report: &Report) {
    for (name, length) in LENGTHS {
        let frame = FRAME.bytes(Format::General, length);
        let name = format!("compact: from {name} bytes");
        one(
            report,
            &name,
            COMPACT,
            SETTINGS,
            &frame,
            written(length - 12),
        );
    }
    for (name, length) in LENGTHS {
        expand_row(report, &format!("expand: to {name} bytes"), 0, length);
    }
    expand_row(report, "expand: to 1,500 bytes with a tag", 1, 1500);
    for (name, length) in LENGTHS {
        let frame = FRAME.bytes(Format::General, length);
        let name = format!("send: {name} bytes, Compact on");
        one(report, &name, SEND, SETTINGS, &frame, written(length - 12));
    }
    let off = Settings {
        compact: 0,
        ..SETTINGS
    };
    let frame = FRAME.bytes(Format::General, 1500);
    one(
        report,
        "send: 1,500 bytes, Compact off",
        SEND,
        off,
        &frame,
        ITSELF,
    );
}

/// A row of compact or send.
fn one(
    report: &Report,
    name: &str,
    pair: Pair<Compact>,
    settings: Settings,
    frame: &[u8],
    expected: u64,
) {
    let frame: &[u8] = &Buffer::input(frame);
    report.row(
        name,
        pair,
        Areas::new(&[], &[0xEE; 9216]),
        |word| word == expected,
        // SAFETY: the areas do not overlap and are as long as said.
        |call, lent| unsafe {
            call(
                settings.port,
                settings.inner,
                settings.nickname,
                settings.compact,
                settings.confidence,
                settings.seconds,
                frame.as_ptr(),
                frame.len(),
                lent.out.as_mut_ptr(),
                lent.out.len(),
            )
        },
    );
}

/// A row of expand with a result of this length.
fn expand_row(report: &Report, name: &str, tagged: u32, length: usize) {
    let bytes = FRAME.bytes(Format::Compact, length - 12 - 4 * tagged as usize);
    let frame: &[u8] = &Buffer::input(&bytes);
    report.row(
        name,
        EXPAND,
        Areas::new(&[], &[0xEE; 9216]),
        |word| word == written(length),
        // SAFETY: the areas do not overlap and are as long as said.
        |expand, lent| unsafe {
            expand(
                SETTINGS.port,
                SETTINGS.inner,
                SETTINGS.nickname,
                SETTINGS.compact,
                SETTINGS.confidence,
                SETTINGS.seconds,
                0x0200_0000_00B2,
                tagged,
                100,
                frame.as_ptr(),
                frame.len(),
                lent.out.as_mut_ptr(),
                lent.out.len(),
            )
        },
    );
}
