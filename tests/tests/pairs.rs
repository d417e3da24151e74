//! A port's map as a slice of pairs, beside its bytes (document 02, 2026-01, second step). The program `replay` lends a map of whole
//! pairs as a slice; the C boundary takes its bytes. Both make the same calls on the same areas: answers, tables and outputs are equal.
//!
//! The program takes calls of at most 1,024 bytes (docs/REPLAY.md), so a map here has as many pairs as that holds, 158 at most.

use std::io::{Read, Write};
use std::path::{Path, PathBuf};
use std::process::{Command, Stdio};
use std::thread;

use shinglebar_tests::boundary;
use shinglebar_tests::generate::{self, Pool};
use shinglebar_tests::maps;
use shinglebar_tests::random::Random;
use shinglebar_tests::reference::{Map, PAIR, RECORD};
use shinglebar_tests::run::{self, Tally};
use shinglebar_tests::vectors::{self, AREA, INGRESS, RECEIVE_PORT, ROOM, TABLE};

/// The calls of one run of the program.
const BATCH: usize = 500;
/// A case for so many of the number of cases asked for.
const SHARE: u64 = 5;
/// A map in so many has a defect.
const DEFECT: u64 = 3;
/// What stands before the map and the frame: settings and lengths, and what ingress puts around.
const READ_HEAD: usize = 44;
const INGRESS_HEAD: usize = 68;
/// The least that is kept for the frame.
const FRAME: usize = 30;

/// The program, which `make target/bin/replay` and the gate build.
fn program() -> PathBuf {
    let program = Path::new(env!("SHINGLEBAR_ARCHIVE")).with_file_name("../bin/replay");
    assert!(
        program.is_file(),
        "{} is missing: run `make target/bin/replay` first",
        program.display()
    );
    program
}

/// What the program writes of this input.
fn replayed(input: String) -> String {
    let mut child = Command::new(program())
        .stdin(Stdio::piped())
        .stdout(Stdio::piped())
        .spawn()
        .expect("the program runs");
    let mut to = child.stdin.take().expect("its input");
    let mut from = child.stdout.take().expect("its output");
    // It writes while it reads.
    let writer = thread::spawn(move || to.write_all(input.as_bytes()));
    let mut text = String::new();
    from.read_to_string(&mut text).expect("a text");
    let status = child.wait().expect("its end");
    assert!(status.success(), "{status}");
    let written = writer.join().expect("its input");
    written.expect("the program reads all of its input");
    text
}

/// The calls made: what the program is given and what the C boundary gave, a call each.
#[derive(Default)]
struct Calls {
    input: Vec<String>,
    expected: Vec<String>,
    /// The program's output area. It is zeros at the start of a run, and keeps what calls have written.
    area: Vec<u8>,
}

impl Calls {
    /// The area as the next call finds it.
    fn area(&mut self) -> &mut [u8] {
        if self.input.len() % BATCH == 0 {
            self.area = vec![0; AREA];
        }
        &mut self.area
    }

    fn add(&mut self, input: String, word: u64, table: &[u8], room: usize) {
        let (table, out) = (vectors::hex(table), vectors::hex(&self.area[..room]));
        self.input.push(input);
        self.expected.push(format!("{word:016x} {table} {out}"));
    }

    /// The program makes the same calls, and writes the same.
    fn compare(&self) {
        for (run, (input, expected)) in self
            .input
            .chunks(BATCH)
            .zip(self.expected.chunks(BATCH))
            .enumerate()
        {
            let text = replayed(input.concat());
            let lines: Vec<&str> = text.lines().collect();
            for (at, (line, expected)) in lines.iter().zip(expected).enumerate() {
                assert!(
                    line == expected,
                    "case {}: the program answers\n{line}\nand the C boundary\n{expected}\nof\n{}",
                    run::only().unwrap_or((run * BATCH + at) as u64),
                    input[at]
                );
            }
            assert_eq!(lines.len(), expected.len());
        }
    }
}

/// A map of 0 to as many pairs as fit into these bytes.
fn map(random: &mut Random, pool: &Pool, room: usize) -> Vec<u8> {
    let most = (room - FRAME) / PAIR;
    let count = match random.below(20) {
        0..=1 => 0,
        2..=4 => 1,
        5..=7 => 2,
        8..=9 => random.length(60, most),
        10 => most,
        11..=12 => random.length(20, 60),
        _ => random.length(3, 19),
    };
    maps::mostly_good(random, pool, count, DEFECT)
}

/// A table that the program can hold.
fn table(random: &mut Random, pool: &Pool) -> Vec<u8> {
    let mut table = generate::table(random, pool);
    table.truncate(match random.below(8) {
        0 => ROOM,
        _ => RECORD * random.length(1, 12),
    });
    table
}

fn count_map(tally: &mut Tally, map: &[u8]) {
    let whole = map.len() % PAIR == 0;
    let fault = |wrong: bool| wrong && whole;
    let (mut vlans, mut labels) = (Vec::new(), Vec::new());
    for pair in map.chunks_exact(PAIR) {
        vlans.push(&pair[..2]);
        labels.push(&pair[2..]);
    }
    let twice = |numbers: &mut Vec<&[u8]>| {
        numbers.sort();
        numbers.windows(2).any(|two| two[0] == two[1])
    };
    for (holds, situation) in [
        (map.is_empty(), "map: empty"),
        (!whole, "map: a length that is none"),
        (fault(twice(&mut vlans)), "map: a VLAN twice"),
        (fault(twice(&mut labels)), "map: a label twice"),
        (
            fault(labels.iter().any(|label| label[0] != 0)),
            "map: a label over FFFFFF",
        ),
        (!map.is_empty() && Map::check(map).is_ok(), "map: good"),
        (
            map.len() >= 100 * PAIR && Map::check(map).is_ok(),
            "map: good, 100 pairs or more",
        ),
        (
            map.len() >= 100 * PAIR && Map::check(map).is_err(),
            "map: bad, 100 pairs or nearly",
        ),
    ] {
        if holds {
            tally.situation(situation);
        }
    }
}

const MAPS: [&str; 8] = [
    "map: empty",
    "map: a length that is none",
    "map: a VLAN twice",
    "map: a label twice",
    "map: a label over FFFFFF",
    "map: good",
    "map: good, 100 pairs or more",
    "map: bad, 100 pairs or nearly",
];

#[test]
fn reading_with_a_slice_of_pairs_is_reading_with_their_bytes() {
    let mut calls = Calls::default();
    run::cases_of_seed(
        2601,
        "reading_with_a_slice_of_pairs_is_reading_with_their_bytes",
        SHARE,
        run::RECEIVE_PORT,
        &[&MAPS[..], &["delivered with a tag"]].concat(),
        |random, tally| {
            let pool = Pool::new(random);
            let good = random.one_in(2);
            let settings = match good {
                true => generate::good_settings(random, &pool),
                false => maps::settings(random, &pool),
            };
            let map = map(random, &pool, ROOM - READ_HEAD);
            // A frame that the line has room for.
            let (room, frame) = loop {
                let frame = match good {
                    true => generate::good_frame(random, &pool, &settings),
                    false => generate::frame(random, &pool, &settings),
                };
                let room = generate::area_length(random, 16 + frame.content.len());
                let frame = match good {
                    true => frame.bytes(),
                    false => generate::damage(random, frame.bytes()),
                };
                if READ_HEAD + map.len() + frame.len() <= ROOM && room <= AREA {
                    break (room, frame);
                }
            };
            let mut table = table(random, &pool);
            let body = [
                &vectors::settings_bytes(&settings)[..],
                &settings.multihomed.to_be_bytes(),
                &settings.smart.to_be_bytes(),
                &(room as u16).to_be_bytes(),
                &(map.len() as u16).to_be_bytes(),
                &map,
                &frame,
            ]
            .concat();
            let input =
                vectors::input_line(TABLE, &table) + &vectors::input_line(RECEIVE_PORT, &body);
            let out = &mut calls.area()[..room];
            let word = boundary::receive_port(random, &settings, &map, &frame, &mut table, out);
            tally.word(word);
            count_map(tally, &map);
            if maps::is_tagged(&map, word) {
                tally.situation("delivered with a tag");
            }
            calls.add(input, word, &table, room);
        },
    );
    calls.compare();
}

#[test]
fn ingress_with_a_slice_of_pairs_is_ingress_with_their_bytes() {
    let mut calls = Calls::default();
    run::cases_of_seed(
        2601,
        "ingress_with_a_slice_of_pairs_is_ingress_with_their_bytes",
        SHARE,
        run::INGRESS,
        &MAPS,
        |random, tally| {
            let pool = Pool::new(random);
            let settings = generate::settings(random, &pool);
            let map = map(random, &pool, ROOM - INGRESS_HEAD);
            let given = maps::encapsulation(random, &pool, &settings);
            // A frame that the line has room for.
            let (room, frame) = loop {
                let frame = maps::native(random, &pool, &map).bytes();
                let room = generate::area_length(random, frame.len() + 24);
                let frame = generate::damage(random, frame);
                if INGRESS_HEAD + map.len() + frame.len() <= ROOM && room <= AREA {
                    break (room, frame);
                }
            };
            let body = [
                &vectors::settings_bytes(&settings)[..],
                &vectors::encapsulation_bytes(&given),
                &(room as u16).to_be_bytes(),
                &(map.len() as u16).to_be_bytes(),
                &map,
                &frame,
            ]
            .concat();
            let input = vectors::input_line(TABLE, &[]) + &vectors::input_line(INGRESS, &body);
            let out = &mut calls.area()[..room];
            let word = boundary::ingress(random, &settings, &map, &given, &frame, out);
            tally.word(word);
            count_map(tally, &map);
            calls.add(input, word, &[], room);
        },
    );
    calls.compare();
}

/// Ingress of the native frame of the request, by its map.
fn a_native_frame() -> Calls {
    let mut calls = Calls::default();
    let settings = [0, 0xA1, 0, 0xB1, 0x0102, 1, 20, 0].map(u32::to_be_bytes);
    let outer = [0, 0xA1, 0, 0xB2, 0, 5, 0x0102, 0x1234].map(u32::to_be_bytes);
    let map = [0x00, 0x0A, 0x00, 0xAB, 0xCD, 0xEF];
    let frame = [
        2, 0, 0, 0, 0, 0x0D, 2, 0, 0, 0, 0, 1, 0x81, 0, 0x60, 0x0A, 8, 0, 0x45, 0,
    ];
    let lengths = [0, 44, 0, 6];
    let body = [
        settings.as_flattened(),
        outer.as_flattened(),
        &lengths,
        &map,
        &frame,
    ]
    .concat();
    let general = [
        0, 0, 0, 0, 0, 0xA1, 0, 0, 0, 0, 0, 0xB2, 0x22, 0xF3, 0, 5, 1, 2, 0x12, 0x34, 2, 0, 0, 0,
        0, 0x0D, 2, 0, 0, 0, 0, 1, 0x89, 0x3B, 0x6A, 0xBC, 0x89, 0x3B, 0x6D, 0xEF, 8, 0, 0x45, 0,
    ];
    calls.area()[..general.len()].copy_from_slice(&general);
    let input = vectors::input_line(TABLE, &[]) + &vectors::input_line(INGRESS, &body);
    calls.add(input, 0x2C40, &[], general.len());
    calls
}

#[test]
fn the_program_writes_the_frame_of_the_request() {
    a_native_frame().compare();
}

#[test]
#[should_panic(expected = "case 0: the program answers")]
fn a_wrong_digit_is_found() {
    let mut calls = a_native_frame();
    let line = &mut calls.expected[0];
    line.replace_range(line.len() - 1.., "1");
    calls.compare();
}
