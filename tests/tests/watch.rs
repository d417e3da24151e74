//! The watch (2026-06), compared through the C boundary.

use std::fs;
use std::path::Path;
use std::process::Command;

use shinglebar::Watch;
use shinglebar_tests::c_program;
use shinglebar_tests::pages::Pages;
use shinglebar_tests::random::Random;
use shinglebar_tests::reference::Settings;
use shinglebar_tests::run::{self, Tally};
use shinglebar_tests::watched::{self, compare, Call, Place, BPDU, EDGES, HELLO, LLDP, WATCH};

fn event(watch: &mut Watch, now: u32, kind: u32, time: u16) -> u64 {
    compare(
        &mut Random::new(1),
        watch,
        now,
        &mut Call::Event { kind, time },
    )
}

fn tick(watch: &mut Watch, now: u32) -> u64 {
    compare(&mut Random::new(1), watch, now, &mut Call::Tick)
}

#[test]
fn the_stops_and_the_time_passed_are_those_of_the_request() {
    for (kind, time, seconds) in [
        (HELLO, 3, 10),
        (HELLO, 6, 12),
        (BPDU, 512, 10),
        (BPDU, 641, 11),
        (BPDU, 65_535, 1024),
        (LLDP, 65_535, 131_070),
        (0, 65_535, 10),
    ] {
        let mut watch = Watch::new(7);
        assert_eq!(event(&mut watch, 7, kind, time), 64 | seconds << 8);
        assert_eq!(u64::from(watch.left), seconds);
    }
    for (reading, now, left) in [
        (0xFFFF_FFF0, 0x0000_000A, 4),
        (100, 99, 30),
        (0, 0x8000_0000, 30),
        (0, 0x7FFF_FFFF, 0),
    ] {
        let mut watch = Watch { left: 30, reading };
        assert_eq!(tick(&mut watch, now), 64 | left << 8);
        assert_eq!((u64::from(watch.left), watch.reading), (left, now));
    }
}

#[test]
fn every_time_of_every_event_stops_for_as_long_as_the_paper_says() {
    for kind in [0, HELLO, BPDU, LLDP, 4, u32::MAX] {
        for time in 0..=u16::MAX {
            let mut fresh = Watch::new(5);
            let word = event(&mut fresh, 5, kind, time);
            assert_eq!(word == 1, kind > LLDP);
            let left = u32::from(time) % 1500;
            let mut stopped = Watch { left, reading: 5 };
            event(&mut stopped, 8, kind, time);
        }
    }
}

#[test]
fn readings_around_the_turns_of_the_clock_take_off_what_the_paper_says() {
    for reading in EDGES {
        for now in EDGES {
            for left in EDGES {
                for call in [
                    Call::Reset,
                    Call::Tick,
                    Call::Event { kind: 0, time: 3 },
                    Call::Event {
                        kind: BPDU,
                        time: 900,
                    },
                    Call::Event { kind: 4, time: 900 },
                ] {
                    let mut watch = Watch { left, reading };
                    compare(&mut Random::new(1), &mut watch, now, &mut call.clone());
                }
            }
        }
    }
}

const SITUATIONS: &[&str] = &[
    "compacted",
    "the frame itself, seconds left and Compact on",
    "the frame itself, no seconds left",
    "refused, seconds left",
    "refused, no seconds left",
    "1 for Compact 2, seconds left",
    "the stop ends at this reading",
    "the clock has gone back",
    "the clock has started again at zero",
    "an event is refused",
    "an event prolongs the stop",
    "an event leaves a longer stop",
];

/// Makes a list of calls on one watch and counts what it met.
fn list(place: &mut impl Place, random: &mut Random, tally: &mut Tally, length: usize) {
    let mut watch = match random.below(3) {
        0 => Watch::new(random.number() as u32),
        1 => Watch {
            left: random.below(60) as u32,
            reading: random.pick(&EDGES),
        },
        _ => Watch {
            left: random.number() as u32,
            reading: random.number() as u32,
        },
    };
    for _ in 0..length {
        let now = watched::later(random, watch.reading);
        let before = watch;
        let mut made = Call::random(random);
        let difference = now.wrapping_sub(before.reading);
        let passed = if difference < 1 << 31 { difference } else { 0 };
        let left = before.left.saturating_sub(passed);
        let word = compare(place, &mut watch, now, &mut made);
        if difference >= 1 << 31 {
            tally.situation("the clock has gone back");
        } else if now < before.reading {
            tally.situation("the clock has started again at zero");
        }
        match made {
            Call::Send { settings, .. } => {
                count_send(tally, word, before.left, left, &settings);
                if word < 64 {
                    assert_eq!(watch, before);
                }
            }
            Call::Event { .. } if word == 1 => {
                assert_eq!(watch, before);
                tally.word(word);
                tally.situation("an event is refused");
            }
            Call::Event { .. } => {
                tally.word(word);
                tally.situation(match watch.left > left {
                    true => "an event prolongs the stop",
                    false => "an event leaves a longer stop",
                });
            }
            Call::Reset | Call::Tick => tally.word(word),
        }
    }
}

fn count_send(tally: &mut Tally, word: u64, before: u32, left: u32, settings: &Settings) {
    match (word & 0xFF, left > 0) {
        (64, stopped) => {
            assert!(!stopped);
            tally.situation("compacted");
            if before > 0 {
                tally.situation("the stop ends at this reading");
            }
        }
        (65, true) if settings.compact == 1 => {
            tally.situation("the frame itself, seconds left and Compact on")
        }
        (65, false) => tally.situation("the frame itself, no seconds left"),
        (65, true) => {}
        (1, true) if settings.compact == 2 => tally.situation("1 for Compact 2, seconds left"),
        (_, true) => tally.situation("refused, seconds left"),
        (_, false) => tally.situation("refused, no seconds left"),
    }
}

#[test]
fn lists_of_calls_on_a_watch_answer_and_leave_as_the_paper_says() {
    run::cases(
        "lists_of_calls_on_a_watch_answer_and_leave_as_the_paper_says",
        8,
        WATCH,
        SITUATIONS,
        |random, tally| {
            let length = random.length(1, 40);
            let mut place = Random::new(random.number());
            list(&mut place, random, tally, length);
        },
    );
}

#[test]
fn the_calls_on_a_watch_touch_only_what_they_are_lent() {
    let mut both = Pages::both();
    run::cases(
        "the_calls_on_a_watch_touch_only_what_they_are_lent",
        20,
        WATCH,
        SITUATIONS,
        |random, tally| {
            let length = random.length(1, 30);
            let seed = random.number();
            for pages in &mut both {
                list(pages, &mut Random::new(seed), tally, length);
            }
        },
    );
}

#[test]
fn the_fuzz_target_of_the_watch_accepts_random_calls() {
    let made = Path::new(env!("OUT_DIR"));
    let program = made.join("fuzz_watch");
    let status = Command::new("cc")
        .current_dir(Path::new(env!("CARGO_MANIFEST_DIR")).join(".."))
        .args([
            "-std=c99",
            "-pedantic",
            "-O2",
            "-Wall",
            "-Wextra",
            "-Werror",
        ])
        .args(["-Iinclude", "fuzz/watch.c", "fuzz/main.c"])
        .args([env!("SHINGLEBAR_ARCHIVE"), "-o"])
        .arg(&program)
        .status()
        .expect("cc can be run");
    assert!(status.success());
    let inputs: Vec<_> = (0..40)
        .map(|case| {
            let random = &mut Random::for_case(2606, case);
            let input = made.join(format!("fuzz_watch_{case}"));
            let length = random.length(0, 4000);
            fs::write(&input, random.bytes(length)).expect("an input");
            input
        })
        .collect();
    let status = Command::new(&program).args(&inputs).status();
    assert!(status.expect("the target runs").success());
}

#[test]
fn the_driver_tells_what_says_that_a_link_is_shared() {
    c_program::compile_and_run("notice.c");
}
