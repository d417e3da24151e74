//! The calls on a watch, made twice: to the library and to the second implementation. The words, both
//! numbers of the watch and all bytes of the areas must be equal.

#![allow(unsafe_code)]

use std::collections::BTreeMap;

use shinglebar::{decode, encode, exports, Answer, Left, Sent, Watch};

use crate::boundary::numbers;
use crate::compare::hex;
use crate::generate::{self, Pool};
use crate::lend::Lend;
use crate::pages::Pages;
use crate::random::Random;
use crate::reference::{self, Settings, WORKING_AREA};
use crate::run::{self, Answers};

pub const HELLO: u32 = 1;
pub const BPDU: u32 = 2;
pub const LLDP: u32 = 3;

pub const WATCH: Answers = &[(1, "refusal 1: unknown kind"), (64, "seconds left")];

/// Readings around the turns of the clock.
pub const EDGES: [u32; 16] = [
    0,
    1,
    2,
    9,
    10,
    11,
    0x7FFF_FFFE,
    0x7FFF_FFFF,
    0x8000_0000,
    0x8000_0001,
    0x8000_0002,
    0xFFFF_FFF0,
    0xFFFF_FFFD,
    0xFFFF_FFFE,
    0xFFFF_FFFF,
    0x1234_5678,
];

/// A call on a watch.
#[derive(Clone, Debug)]
pub enum Call {
    Reset,
    Tick,
    Event {
        kind: u32,
        time: u16,
    },
    Send {
        settings: Settings,
        frame: Vec<u8>,
        work: Vec<u8>,
    },
}

/// Where a watch lies for a call.
pub trait Place {
    /// Makes the call on a watch with these numbers and areas with these bytes; the watch and `work` are
    /// then as the call left them.
    fn lend(
        &mut self,
        watch: &mut Watch,
        frame: &[u8],
        work: &mut [u8],
        call: impl FnOnce(*mut Watch, &[u8], &mut [u8]) -> u64,
    ) -> u64;
}

/// Between random words, which must stay; the areas as for other calls.
impl Place for Random {
    fn lend(
        &mut self,
        watch: &mut Watch,
        frame: &[u8],
        work: &mut [u8],
        call: impl FnOnce(*mut Watch, &[u8], &mut [u8]) -> u64,
    ) -> u64 {
        #[repr(C)]
        struct Guarded([u32; 8], Watch, [u32; 8]);
        let [before, behind] = [0; 2].map(|_| [0; 8].map(|_: u32| self.number() as u32));
        let mut guarded = Guarded(before, *watch, behind);
        let place: *mut Guarded = &mut guarded;
        let areas = [("working area", work)];
        let word = Lend::lend(self, [("frame", frame)], areas, |[frame], [work]| {
            // SAFETY: the address of a field of what lives here.
            call(unsafe { &raw mut (*place).1 }, frame, work)
        });
        let guarded = std::hint::black_box(&guarded);
        assert_eq!((guarded.0, guarded.2), (before, behind), "beside the watch");
        *watch = guarded.1;
        word
    }
}

/// Against memory that cannot be accessed, the watch too.
impl Place for Pages {
    fn lend(
        &mut self,
        watch: &mut Watch,
        frame: &[u8],
        work: &mut [u8],
        call: impl FnOnce(*mut Watch, &[u8], &mut [u8]) -> u64,
    ) -> u64 {
        let [a, b, c, d] = watch.left.to_ne_bytes();
        let [e, f, g, h] = watch.reading.to_ne_bytes();
        let mut bytes = [a, b, c, d, e, f, g, h];
        let areas = [("watch", &mut bytes[..]), ("working area", work)];
        let word = Lend::lend(self, [("frame", frame)], areas, |[frame], [watch, work]| {
            assert_eq!(watch.as_ptr().align_offset(align_of::<Watch>()), 0);
            call(watch.as_mut_ptr().cast(), frame, work)
        });
        let [a, b, c, d, e, f, g, h] = bytes;
        watch.left = u32::from_ne_bytes([a, b, c, d]);
        watch.reading = u32::from_ne_bytes([e, f, g, h]);
        word
    }
}

/// The word, which must be one of the call and no other's.
fn known<A: Answer>(word: u64) -> u64 {
    let outcome = decode::<A>(word).unwrap_or_else(|unknown| panic!("{unknown}"));
    assert_eq!(encode(&outcome), word);
    word
}

fn library(place: &mut impl Place, watch: &mut Watch, now: u32, call: &mut Call) -> u64 {
    // SAFETY of the four: a watch and areas that the place lends for the call, and to it alone.
    match call {
        Call::Reset => known::<Left>(place.lend(watch, &[], &mut [], |watch, _, _| unsafe {
            exports::shinglebar_watch_reset(watch, now)
        })),
        Call::Tick => known::<Left>(place.lend(watch, &[], &mut [], |watch, _, _| unsafe {
            exports::shinglebar_watch_tick(watch, now)
        })),
        Call::Event { kind, time } => {
            known::<Left>(place.lend(watch, &[], &mut [], |watch, _, _| unsafe {
                exports::shinglebar_watch_event(watch, now, *kind, *time)
            }))
        }
        Call::Send {
            settings,
            frame,
            work,
        } => known::<Sent>(place.lend(watch, frame, work, |watch, frame, work| {
            let far = numbers(settings);
            unsafe {
                exports::shinglebar_send_watched(
                    far.port,
                    far.inner,
                    far.nickname,
                    far.compact,
                    far.confidence,
                    far.seconds,
                    watch,
                    now,
                    frame.as_ptr(),
                    frame.len(),
                    work.as_mut_ptr(),
                    work.len(),
                )
            }
        })),
    }
}

fn paper(watch: &mut reference::Watch, now: u32, call: &mut Call) -> u64 {
    match call {
        Call::Reset => reference::watch_reset(watch, now),
        Call::Tick => reference::watch_tick(watch, now),
        Call::Event { kind, time } => reference::watch_event(watch, now, *kind, *time),
        Call::Send {
            settings,
            frame,
            work,
        } => reference::send_watched(settings, watch, now, frame, work),
    }
}

/// Makes the call to both; `watch` and the call's working area are then as it left them.
pub fn compare(place: &mut impl Place, watch: &mut Watch, now: u32, call: &mut Call) -> u64 {
    let (given, asked) = (*watch, call.clone());
    let mut second = reference::Watch {
        left: i64::from(watch.left),
        reading: i64::from(watch.reading),
    };
    let mut other = call.clone();
    let word = library(place, watch, now, call);
    let wanted = paper(&mut second, now, &mut other);
    let same = i64::from(watch.left) == second.left && i64::from(watch.reading) == second.reading;
    let areas = match (&*call, &other) {
        (Call::Send { work: a, .. }, Call::Send { work: b, .. }) => a == b,
        _ => true,
    };
    assert!(
        word == wanted && same && areas,
        "library {word:#x} {watch:x?}, paper {wanted:#x} {second:x?}, working areas equal: {areas}\n\
         at {now:#x} on {given:x?}: {}",
        match &asked {
            Call::Send {
                settings, frame, ..
            } => format!("send {settings:#x?} {}", hex(frame)),
            other => format!("{other:x?}"),
        }
    );
    word
}

/// A reading: a little later, at an edge, back, far away.
pub fn later(random: &mut Random, reading: u32) -> u32 {
    match random.below(8) {
        0 => random.pick(&EDGES),
        1 => random.number() as u32,
        2 => reading.wrapping_sub(random.below(40) as u32),
        3 => reading.wrapping_add(0x8000_0000 - 2 + random.below(4) as u32),
        4 => reading,
        _ => reading.wrapping_add(random.below(30) as u32),
    }
}

/// A frame to send to a far port, with a working area; refusals among them.
fn send(random: &mut Random) -> Call {
    let pool = Pool::new(random);
    let mut settings = match random.below(4) {
        0 => generate::settings(random, &pool),
        _ => generate::good_settings(random, &pool),
    };
    settings.compact = random.pick(&[0, 1, 1, 1, 1, 2]);
    let mut frame = match random.below(3) {
        0 => generate::frame(random, &pool, &settings),
        _ => generate::good_frame(random, &pool, &settings),
    };
    frame.compact = random.one_in(20);
    let mut frame = frame.bytes();
    if random.one_in(4) {
        frame = generate::damage(random, frame);
    }
    let work = match random.below(10) {
        0 => random.bytes(WORKING_AREA - 1),
        1 => random.bytes(0),
        _ => random.bytes(WORKING_AREA),
    };
    Call::Send {
        settings,
        frame,
        work,
    }
}

impl Call {
    pub fn random(random: &mut Random) -> Call {
        match random.below(12) {
            0 => Call::Reset,
            1 | 2 => Call::Tick,
            3..=6 => Call::Event {
                kind: random.pick(&[0, HELLO, HELLO, BPDU, BPDU, LLDP, 4, 0xFFFF_FFFF]),
                time: random.pick(&[0, 4, 5, 6, 640, 641, 1000, 0xFFFF, 20]),
            },
            _ => send(random),
        }
    }
}

/// The calls of the program `replay`, and the answers that each must give in some vector.
pub const ANSWERS: &[(u8, Answers)] = &[(0x60, WATCH), (0x61, run::SEND)];

/// How many vectors of one answer are kept.
const OF_EACH: usize = 1;

/// The number and the bytes of a call for the program.
fn line(watch: &Watch, now: u32, call: &Call) -> (u8, Vec<u8>) {
    let three = [watch.left, watch.reading, now]
        .map(u32::to_be_bytes)
        .concat();
    let small = |which: u8, kind: u32, time: u16| {
        let rest = [&[which][..], &kind.to_be_bytes(), &time.to_be_bytes()].concat();
        (0x60, [&three[..], &rest].concat())
    };
    match call {
        Call::Reset => small(0, 0, 0),
        Call::Tick => small(1, 0, 0),
        Call::Event { kind, time } => small(2, *kind, *time),
        Call::Send {
            settings,
            frame,
            work,
        } => {
            let numbers = crate::vectors::settings_bytes(settings);
            let room = (work.len() as u16).to_be_bytes();
            (0x61, [&three[..], &numbers, &room, frame].concat())
        }
    }
}

/// Calls for the program `replay` with what the second implementation says they give: number, bytes, word,
/// working area and watch. First the cases of the request.
pub fn vectors(area: &mut [u8]) -> Vec<(u8, Vec<u8>, u64, Vec<u8>, [u32; 2])> {
    let event = |kind, time| (Watch::new(7), 7, Call::Event { kind, time });
    let tick = |reading, now| (Watch { left: 30, reading }, now, Call::Tick);
    let mut offered = vec![
        event(HELLO, 3),
        event(HELLO, 6),
        event(BPDU, 512),
        event(BPDU, 641),
        event(BPDU, 65_535),
        event(LLDP, 65_535),
        tick(0xFFFF_FFF0, 0x0000_000A),
        tick(100, 99),
        tick(0, 0x8000_0000),
    ];
    let named = offered.len();
    for case in 0..20_000 {
        let random = &mut Random::for_case(2606, case);
        let left = random.pick(&[0, 0, 5, 40]);
        let watch = Watch { left, reading: 100 };
        offered.push((watch, 100 + random.below(20) as u32, Call::random(random)));
    }
    let mut kept = BTreeMap::new();
    let mut vectors = Vec::new();
    for (place, (watch, now, mut call)) in offered.into_iter().enumerate() {
        let (number, body) = line(&watch, now, &call);
        let mut after = reference::Watch {
            left: i64::from(watch.left),
            reading: i64::from(watch.reading),
        };
        if let Call::Send { work, .. } = &mut call {
            let length = work.len();
            work.copy_from_slice(&area[..length]);
        }
        let word = paper(&mut after, now, &mut call);
        let count = kept
            .entry((number, word as u8, watch.left > 0))
            .or_insert(0);
        if body.len() > 1024 || (place >= named && *count >= OF_EACH) {
            continue;
        }
        *count += 1;
        let work = match call {
            Call::Send { work, .. } => work,
            _ => Vec::new(),
        };
        area[..work.len()].copy_from_slice(&work);
        let watch = [after.left as u32, after.reading as u32];
        vectors.push((number, body, word, work, watch));
    }
    vectors
}
