//! The watch of a sending port.

use std::slice;

use shinglebar::Watch;

use super::convert::sent;
use super::refusal;
use super::settings::Port;

/// The watch after a reading.
#[inline(always)]
fn ticked(watch: Watch, now: u32) -> Watch {
    let difference = now.wrapping_sub(watch.reading);
    let passed = if difference >> 31 == 0 { difference } else { 0 };
    Watch {
        left: watch.left.saturating_sub(passed),
        reading: now,
    }
}

#[inline(never)]
pub unsafe extern "C" fn watch_event(watch: *mut Watch, now: u32, kind: u32, time: u16) -> u64 {
    let time = u32::from(time);
    let stop = match kind {
        0 => 10,
        1 | 3 => (2 * time).max(10),
        2 => (4 * time).div_ceil(256).max(10),
        _ => return refusal::SETTINGS,
    };
    let watch = &mut *watch;
    *watch = ticked(*watch, now);
    watch.left = watch.left.max(stop);
    64 | u64::from(watch.left) << 8
}

#[inline(never)]
pub unsafe extern "C" fn send_watched(
    port: u64,
    inner: u64,
    nickname: u32,
    compact: u32,
    confidence: u32,
    seconds: u32,
    watch: *mut Watch,
    now: u32,
    frame: *const u8,
    frame_len: usize,
    work: *mut u8,
    work_len: usize,
) -> u64 {
    let mut port = match Port::new(port, inner, nickname, compact, confidence, seconds) {
        Ok(port) => port,
        Err(refusal) => return refusal,
    };
    let frame = slice::from_raw_parts(frame, frame_len);
    let work = slice::from_raw_parts_mut(work, work_len);
    let after = ticked(*watch, now);
    port.compact &= after.left == 0;
    match sent(&port, frame, work) {
        Ok(word) => {
            *watch = after;
            word
        }
        Err(refusal) => refusal,
    }
}
