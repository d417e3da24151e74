//! Whole call lists, once as they are and once with frames compacted, through the C boundary; and with the old and the new default life.
//! Each reading has a map of its own, often none (document 02, 2026-01), and the port any R bit that marks frames, or none (2026-12).

use shinglebar_tests::boundary;
use shinglebar_tests::compare::hex;
use shinglebar_tests::generate::{self, Pool};
use shinglebar_tests::maps;
use shinglebar_tests::random::Random;
use shinglebar_tests::reference::{self, Record, Settings, RECORD};
use shinglebar_tests::run::{self, Tally};

/// A call of the list of demand 3.
enum Call {
    Receive {
        map: Vec<u8>,
        frame: Vec<u8>,
        out: Vec<u8>,
    },
    Age {
        seconds: u16,
    },
    Lookup {
        kind: u32,
        label: u32,
        mac: u64,
    },
    Spoilt,
    Portion {
        ingress: u32,
        payload: Vec<u8>,
        slot: u64,
        k: u64,
    },
}

/// A portion; document 02, 2026-05: "Demand 3 then speaks of runs with the same portions at the same places".
fn portion(random: &mut Random, pool: &Pool, table: &[u8]) -> Call {
    let (slot, k) = generate::portion(random, table.len());
    Call::Portion {
        ingress: generate::ingress(random, pool),
        payload: generate::payload(random, pool),
        slot,
        k,
    }
}

fn call(random: &mut Random, pool: &Pool, settings: &Settings, table: &[u8]) -> Call {
    match random.below(10) {
        0 => Call::Age {
            seconds: generate::seconds(random, table),
        },
        1..=2 => {
            let (kind, label, mac) = generate::key(random, pool, table);
            Call::Lookup { kind, label, mac }
        }
        3 => Call::Spoilt,
        4 => portion(random, pool, table),
        _ => {
            let mut frame = generate::frame(random, pool, settings);
            if !random.one_in(6) {
                frame.compact = false;
            }
            // A channel frame to :42 is not compacted, one to the own inner address is.
            if frame.content.starts_with(&[0x89, 0x46]) && !random.one_in(4) {
                frame.inner_destination = settings.inner & ((1 << 48) - 1);
            }
            let map = match random.below(3) {
                0 => Vec::new(),
                _ => maps::small_map(random, pool),
            };
            let out_length = generate::area_length(random, 16 + frame.content.len());
            let frame = generate::damage(random, frame.bytes());
            Call::Receive {
                map,
                frame,
                out: random.bytes(out_length),
            }
        }
    }
}

/// What a call of the list gives: the word and the output area.
fn make(
    random: &mut Random,
    settings: &Settings,
    call: &Call,
    frame: &[u8],
    table: &mut [u8],
) -> (u64, Vec<u8>) {
    match call {
        Call::Receive { map, out, .. } => {
            let mut out = out.clone();
            let word = match (map.as_slice(), settings.multihomed, settings.smart) {
                ([], 0, 0) => boundary::receive(random, settings, frame, table, &mut out),
                (map, ..) => boundary::receive_port(random, settings, map, frame, table, &mut out),
            };
            (word, out)
        }
        Call::Age { seconds } => (boundary::age(random, *seconds, table), Vec::new()),
        Call::Lookup { kind, label, mac } => (
            boundary::lookup(random, *kind, *label, *mac, table),
            Vec::new(),
        ),
        Call::Spoilt => (boundary::spoilt(random, table), Vec::new()),
        Call::Portion {
            ingress,
            payload,
            slot,
            k,
        } => (
            boundary::flush_portion(random, *ingress, payload, *slot, *k, table),
            Vec::new(),
        ),
    }
}

/// The same of the second implementation, with a default of the learning seconds.
fn make_by_paper(
    life: u16,
    settings: &Settings,
    call: &Call,
    frame: &[u8],
    table: &mut [u8],
) -> (u64, Vec<u8>) {
    match call {
        Call::Receive { map, out, .. } => {
            let mut out = out.clone();
            let word = reference::receive_with(life, settings, map, frame, table, &mut out);
            (word, out)
        }
        Call::Age { seconds } => (reference::age(*seconds, table), Vec::new()),
        Call::Lookup { kind, label, mac } => {
            (reference::lookup(*kind, *label, *mac, table), Vec::new())
        }
        Call::Spoilt => (reference::spoilt(table), Vec::new()),
        Call::Portion {
            ingress,
            payload,
            slot,
            k,
        } => (
            reference::flush_portion(*ingress, payload, *slot, *k, table),
            Vec::new(),
        ),
    }
}

/// Frames with a control address, which compaction leaves as they are.
fn count_control(tally: &mut Tally, frame: &[u8], word: u64) {
    if word == 5 && reference::is_control(reference::destination(frame)) {
        tally.situation("a control address in front, 5 in both runs");
    }
    let inside = reference::read_general(frame)
        .is_ok_and(|fields| reference::is_control(fields.inner_destination));
    if word & 0xFF == 65 && inside {
        tally.situation("a control address inside, delivered in both runs");
    }
}

/// Reading of stations on two switches (document 02, 2026-12): "R passes through compaction, so demand 3 stands over the wider table."
fn count_homes(tally: &mut Tally, before: &[u8], after: &[u8], word: u64) {
    if word & 0xFF != 65 {
        return;
    }
    let records = before.chunks(RECORD).zip(after.chunks(RECORD));
    for (before, after) in records.filter(|(before, after)| before != after) {
        match reference::read(after) {
            Record::Learned(entry) if entry.multihomed => {
                tally.situation("compacted: a marked record is written");
            }
            Record::Free => tally.situation("compacted: a learned record is cleared beside"),
            _ => assert!(!matches!(reference::read(before), Record::Configured(_))),
        }
    }
}

fn count_replaced(tally: &mut Tally, word: u64) {
    tally.situation(match word & 0xFF {
        2 => "compacted: refusal 2",
        8 => "compacted: refusal 8",
        9 => "compacted: refusal 9",
        11 => "compacted: refusal 11",
        6 => "compacted: refusal 6 behind 8946",
        14 => "compacted: refusal 14",
        15 => "compacted: refusal 15",
        16 => "compacted: refusal 16",
        21 => "compacted: refusal 21",
        22 => "compacted: refusal 22",
        64 => "compacted: onward",
        65 => match word >> 24 & 3 {
            0 => "compacted: delivered, learned",
            1 => "compacted: delivered, refreshed",
            2 => "compacted: delivered, kept",
            _ => "compacted: delivered, full",
        },
        66 => "compacted: other channel",
        67 if word >> 8 == 0 => "compacted: flushed none",
        67 => "compacted: flushed some",
        other => panic!("{other} for a compacted frame"),
    });
}

#[test]
fn call_lists_give_the_same_with_frames_compacted() {
    run::cases(
        "call_lists_give_the_same_with_frames_compacted",
        8,
        &[],
        &[
            "compacted: refusal 2",
            "compacted: refusal 6 behind 8946",
            "compacted: refusal 8",
            "compacted: refusal 9",
            "compacted: refusal 11",
            "compacted: refusal 14",
            "compacted: refusal 15",
            "compacted: refusal 16",
            "compacted: refusal 21",
            "compacted: refusal 22",
            "compacted: delivered with a tag by the map",
            "compacted: a marked record is written",
            "compacted: a learned record is cleared beside",
            "compacted: onward",
            "compacted: delivered, learned",
            "compacted: delivered, refreshed",
            "compacted: delivered, kept",
            "compacted: delivered, full",
            "compacted: other channel",
            "compacted: flushed none",
            "compacted: flushed some",
            "accepted but left as it is",
            "refused by compaction",
            "a control address inside, delivered in both runs",
            "a control address in front, 5 in both runs",
            "receive",
            "age",
            "lookup",
            "spoilt",
            "portion",
            "portion: none cleared",
            "portion: some cleared",
            "portion: refused",
        ],
        |random, tally| {
            let pool = Pool::new(random);
            let mut settings = generate::settings(random, &pool);
            settings.compact = 1;
            settings.multihomed = random.pick(&[0, 1, 2]);
            settings.smart = random.pick(&[0, 1]);
            let start = generate::table(random, &pool);
            let (mut plain, mut mixed, mut paper) = (start.clone(), start.clone(), start.clone());
            for step in 0..random.length(1, 16) {
                let call = call(random, &pool, &settings, &start);
                let mut given: &[u8] = &[];
                let mut compacted = None;
                match &call {
                    Call::Receive { frame, .. } => {
                        given = frame;
                        tally.situation("receive");
                        let mut work = random.bytes(9204);
                        let word = boundary::compact(random, &settings, frame, &mut work);
                        if word & 0xFF != 64 {
                            tally.situation("refused by compaction");
                        } else if random.one_in(4) {
                            tally.situation("accepted but left as it is");
                        } else {
                            work.truncate((word >> 8) as usize);
                            compacted = Some(work);
                        }
                    }
                    Call::Age { .. } => tally.situation("age"),
                    Call::Lookup { .. } => tally.situation("lookup"),
                    Call::Spoilt => tally.situation("spoilt"),
                    Call::Portion { .. } => tally.situation("portion"),
                }
                let replaced = compacted.as_deref().unwrap_or(given);
                let before = plain.clone();
                let first = make(random, &settings, &call, given, &mut plain);
                let second = make(random, &settings, &call, replaced, &mut mixed);
                let third =
                    make_by_paper(reference::DEFAULT_LIFE, &settings, &call, given, &mut paper);
                let context = || {
                    format!(
                        "call {step}\n{settings:#x?}\nframe {}\ncompacted {}\ntable at the start {}",
                        hex(given),
                        compacted.as_deref().map_or("no".to_string(), hex),
                        hex(&start)
                    )
                };
                assert!(
                    first == second && plain == mixed,
                    "the two runs differ: words {:#x} and {:#x}, {}",
                    first.0,
                    second.0,
                    context()
                );
                assert!(
                    first == third && plain == paper,
                    "the paper differs: words {:#x} and {:#x}, {}",
                    first.0,
                    third.0,
                    context()
                );
                count_control(tally, given, first.0);
                if compacted.is_some() {
                    count_replaced(tally, first.0);
                }
                if let Call::Portion { .. } = &call {
                    tally.situation(match (first.0 & 0xFF, first.0 >> 8 & 0xFFFF) {
                        (64, 0) => "portion: none cleared",
                        (64, _) => "portion: some cleared",
                        _ => "portion: refused",
                    });
                }
                if let (Some(_), Call::Receive { map, .. }) = (&compacted, &call) {
                    if maps::is_tagged(map, first.0) {
                        tally.situation("compacted: delivered with a tag by the map");
                    }
                    count_homes(tally, &before, &plain, first.0);
                }
            }
        },
    );
}

/// "Show that a port passing 300 behaves after the change as one passing 0 did before" (document 02, 2026-10): the library now, and the
/// second implementation with its old default.
#[test]
fn call_lists_at_a_port_that_passes_300_give_what_one_passing_0_gave_before() {
    run::cases(
        "call_lists_at_a_port_that_passes_300_give_what_one_passing_0_gave_before",
        8,
        &[],
        &[
            "300: learned",
            "300: refreshed",
            "300: kept",
            "300: refused",
            "300: flushed",
            "another life: learned",
            "another life: refreshed",
            "age",
            "lookup",
            "spoilt",
        ],
        |random, tally| {
            let pool = Pool::new(random);
            let mut now = generate::settings(random, &pool);
            let mut before = now;
            let old_life = random.one_in(2) || now.seconds == 0;
            if old_life {
                (now.seconds, before.seconds) = (300, 0);
            }
            let start = generate::table(random, &pool);
            let (mut after, mut paper) = (start.clone(), start.clone());
            for step in 0..random.length(1, 16) {
                let call = call(random, &pool, &now, &start);
                let given: &[u8] = match &call {
                    Call::Receive { frame, .. } => frame,
                    _ => &[],
                };
                let first = make(random, &now, &call, given, &mut after);
                let second = make_by_paper(reference::OLD_LIFE, &before, &call, given, &mut paper);
                assert!(
                    first == second && after == paper,
                    "call {step}: words {:#x} and {:#x}\n{now:#x?}\nframe {}\ntable at the start {}",
                    first.0,
                    second.0,
                    hex(given),
                    hex(&start)
                );
                match (&call, first.0 & 0xFF) {
                    (Call::Receive { .. }, 65) => {
                        tally.situation(match (old_life, first.0 >> 24 & 3) {
                            (true, 0) => "300: learned",
                            (true, 1) => "300: refreshed",
                            (true, 2) => "300: kept",
                            (true, _) => "300: full",
                            (false, 0) => "another life: learned",
                            (false, 1) => "another life: refreshed",
                            (false, _) => "another life: kept or full",
                        })
                    }
                    (Call::Receive { .. }, 67) if old_life => tally.situation("300: flushed"),
                    (Call::Receive { .. }, ..=63) if old_life => tally.situation("300: refused"),
                    (Call::Receive { .. }, _) => tally.situation("receive: another answer"),
                    (Call::Age { .. }, _) => tally.situation("age"),
                    (Call::Lookup { .. }, _) => tally.situation("lookup"),
                    (Call::Spoilt, _) => tally.situation("spoilt"),
                    (Call::Portion { .. }, _) => tally.situation("portion"),
                }
            }
        },
    );
}
