//! The watch of a sending port. The rows of watched sending stand beside those of sending with the same frames.

use shinglebar::exports::{shinglebar_send_watched, shinglebar_watch_event};
use shinglebar::Watch;

use crate::baseline;
use crate::buffer::Buffer;
use crate::inputs::{Format, Frame, SETTINGS};
use crate::measure::{Areas, Pair};
use crate::report::Report;

type Event = unsafe extern "C" fn(watch: *mut Watch, now: u32, kind: u32, time: u16) -> u64;

type Send = unsafe extern "C" fn(
    port: u64,
    inner: u64,
    nickname: u32,
    compact: u32,
    confidence: u32,
    seconds: u32,
    watch: *mut Watch,
    now: u32,
    frame: *const u8,
    frame_len: usize,
    work: *mut u8,
    work_len: usize,
) -> u64;

const EVENT: Pair<Event> = Pair {
    ours: shinglebar_watch_event,
    baseline: baseline::watch_event,
};

const SEND: Pair<Send> = Pair {
    ours: shinglebar_send_watched,
    baseline: baseline::send_watched,
};

const FRAME: Frame = Frame {
    inner_destination: 0x0200_0000_000D,
    inner_source: 0x001B_2104_0506,
    vlan: 10,
    egress: 0x2345,
    ingress: 0x1234,
};

/// The reading of each call, which is that of the watch.
const NOW: u32 = 1000;

fn watch(left: u32) -> [u8; 8] {
    let mut bytes = [0; 8];
    bytes[..4].copy_from_slice(&left.to_ne_bytes());
    bytes[4..].copy_from_slice(&NOW.to_ne_bytes());
    bytes
}

pub fn run(report: &Report) {
    for (name, kind, time, seconds) in [("a native frame", 0, 0, 10), ("a BPDU", 2, 641, 11)] {
        let name = format!("watch: {name}");
        report.row(
            &name,
            EVENT,
            Areas::new(&watch(0), &[]),
            |word| word == 64 | seconds << 8,
            // SAFETY: eight bytes that are aligned as a watch is, lent to this call alone.
            |event, lent| unsafe { event(lent.table.as_mut_ptr().cast(), NOW, kind, time) },
        );
    }
    for (name, length) in [("64", 64), ("1,500", 1500)] {
        let compacted = 64 | (length as u64 - 12) << 8;
        let no_stop = format!("watched send: {name} bytes, no stop");
        send(report, &no_stop, SEND, 0, length, compacted);
    }
    send(
        report,
        "watched send: 1,500 bytes, stopped",
        SEND,
        9,
        1500,
        65,
    );
}

fn send(report: &Report, name: &str, pair: Pair<Send>, left: u32, length: usize, expected: u64) {
    let frame = FRAME.bytes(Format::General, length);
    let frame: &[u8] = &Buffer::input(&frame);
    report.row(
        name,
        pair,
        Areas::new(&watch(left), &[0xEE; 9216]),
        |word| word == expected,
        // SAFETY: the areas do not overlap and are as long as said; the watch is aligned.
        |call, lent| unsafe {
            call(
                SETTINGS.port,
                SETTINGS.inner,
                SETTINGS.nickname,
                SETTINGS.compact,
                SETTINGS.confidence,
                SETTINGS.seconds,
                lent.table.as_mut_ptr().cast(),
                NOW,
                frame.as_ptr(),
                frame.len(),
                lent.out.as_mut_ptr(),
                lent.out.len(),
            )
        },
    );
}
