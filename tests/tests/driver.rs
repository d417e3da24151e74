//! The port driver (driver/*.c), compiled with the archive and run as a user runs it.

use std::collections::BTreeSet;
use std::fs;
use std::io::{BufRead, BufReader, Read, Write};
use std::os::unix::fs::{chown, symlink, MetadataExt, PermissionsExt};
use std::path::{Path, PathBuf};
use std::process::{Child, Command, Output, Stdio};
use std::sync::OnceLock;
use std::thread;
use std::time::{Duration, Instant};

use shinglebar_tests::captures::{self, Form, PORT, USUAL};
use shinglebar_tests::generate;
use shinglebar_tests::hellos;
use shinglebar_tests::maps;
use shinglebar_tests::random::Random;
use shinglebar_tests::reference::{
    self, write, Encapsulation, Entry, Label, OLD_RECORD, RECORD, TABLE,
};
use shinglebar_tests::run;

/// The options of the settings `captures::PORT`.
const SETTINGS: [&str; 8] = [
    "--port",
    "02-00-00-00-00-A1",
    "--inner",
    "02-00-00-00-00-AA",
    "--nickname",
    "0102",
    "--compact",
    "on",
];

fn package() -> &'static Path {
    Path::new(env!("CARGO_MANIFEST_DIR"))
}

fn data(name: &str) -> PathBuf {
    package().join("../driver/data").join(name)
}

/// The program, compiled once.
fn program() -> &'static Path {
    static PROGRAM: OnceLock<PathBuf> = OnceLock::new();
    PROGRAM.get_or_init(|| {
        let program = Path::new(env!("CARGO_TARGET_TMPDIR")).join("shinglebar-port");
        let folder = package().join("../driver");
        let mut sources: Vec<PathBuf> = fs::read_dir(folder)
            .expect("the folder driver")
            .map(|entry| entry.expect("an entry").path())
            .filter(|path| path.extension().is_some_and(|extension| extension == "c"))
            .collect();
        sources.sort();
        let output = Command::new("cc")
            .args([
                "-std=c99",
                "-O2",
                "-Wall",
                "-Wextra",
                "-Werror",
                "-pedantic",
            ])
            .arg("-I")
            .arg(package().join("../include"))
            .args(&sources)
            .arg(env!("SHINGLEBAR_ARCHIVE"))
            .arg("-o")
            .arg(&program)
            .output()
            .expect("cc");
        assert!(output.status.success(), "cc:\n{}", text(&output.stderr));
        program
    })
}

/// An empty folder for a test.
fn folder(test: &str) -> PathBuf {
    let folder = Path::new(env!("CARGO_TARGET_TMPDIR"))
        .join("driver")
        .join(test);
    let _ = fs::remove_dir_all(&folder);
    fs::create_dir_all(&folder).expect("a folder");
    folder
}

fn text(bytes: &[u8]) -> String {
    String::from_utf8(bytes.to_vec()).expect("UTF-8")
}

fn bytes(file: &Path) -> Vec<u8> {
    fs::read(file).unwrap_or_else(|error| panic!("{}: {error}", file.display()))
}

/// Runs the program in a folder, where it finds and leaves its files.
fn run_in(folder: &Path, words: &[&str]) -> Output {
    Command::new(program())
        .current_dir(folder)
        .args(words)
        .output()
        .expect("the driver")
}

/// Runs the program in a folder through a shell line, in which `"$@"` are the program and the words.
fn shell_in(folder: &Path, line: &str, words: &[&str]) -> Output {
    Command::new("sh")
        .current_dir(folder)
        .args(["-c", line, "sh"])
        .arg(program())
        .args(words)
        .output()
        .expect("sh")
}

/// Starts the program in a folder, with what it prints in pipes. SIGHUP is not ignored, also where nohup runs the tests.
fn start_in(folder: &Path, words: &[&str]) -> Child {
    Command::new("env")
        .current_dir(folder)
        .arg("--default-signal=HUP")
        .arg(program())
        .args(words)
        .stdout(Stdio::piped())
        .stderr(Stdio::piped())
        .spawn()
        .expect("the driver")
}

/// Makes a named pipe: a capture that has not come yet.
fn make_pipe(pipe: &Path) {
    let made = Command::new("mkfifo").arg(pipe).status();
    assert!(made.expect("mkfifo").success());
}

/// Opens a named pipe that the driver reads.
fn open_pipe(pipe: &Path) -> fs::File {
    fs::OpenOptions::new()
        .write(true)
        .open(pipe)
        .expect("the pipe")
}

/// Waits until something holds, at most five seconds.
fn await_that(what: &str, holds: impl Fn() -> bool) {
    let tries = (0..1_000).take_while(|_| {
        thread::sleep(Duration::from_millis(5));
        !holds()
    });
    assert!(tries.count() < 1_000, "{what}");
}

fn signal(driver: &Child, name: &str) {
    let sent = Command::new("kill")
        .args([&format!("-{name}"), &driver.id().to_string()])
        .status();
    assert!(sent.expect("kill").success());
}

fn good(output: &Output) -> String {
    let said = text(&output.stderr);
    assert!(output.status.success(), "{}: {said}", output.status);
    assert_eq!(said, "");
    text(&output.stdout)
}

/// The program ended with this status, and said these words on standard error.
fn bad(output: &Output, status: i32, words: &str) {
    let said = text(&output.stderr);
    assert_eq!(output.status.code(), Some(status), "{said}");
    assert!(said.starts_with("shinglebar-port: "), "{said}");
    assert!(said.contains(words), "`{words}` is not in: {said}");
}

/// `receive` with a table of 16 slots and an output capture, in the folder's files `table` and `out`.
fn receive_words(capture: &str) -> Vec<&str> {
    let files = [
        "receive", capture, "--table", "table", "--slots", "16", "--out", "out",
    ];
    [&files[..], &SETTINGS].concat()
}

fn frames(name: &str) -> Vec<Vec<u8>> {
    let (_, frames) = captures::all()
        .into_iter()
        .find(|(found, _)| *found == name)
        .expect("a capture");
    frames
}

/// What the second implementation makes of the frames of a capture, a second apart: the table after them, and the native frames with
/// their places.
fn received(frames: &[Vec<u8>], table: &mut [u8]) -> Vec<(usize, Vec<u8>)> {
    received_with(frames, table, 1)
}

/// The same where no time passes for the table.
fn received_at_once(frames: &[Vec<u8>], table: &mut [u8]) -> Vec<(usize, Vec<u8>)> {
    received_with(frames, table, 0)
}

fn received_with(frames: &[Vec<u8>], table: &mut [u8], seconds: u16) -> Vec<(usize, Vec<u8>)> {
    let mut delivered = Vec::new();
    for (place, frame) in frames.iter().enumerate() {
        if place > 0 {
            reference::age(seconds, table);
        }
        let mut out = vec![0; 9_216];
        let word = reference::receive(&PORT, frame, table, &mut out);
        if word & 0xFF == 65 {
            out.truncate((word >> 8 & 0xFFFF) as usize);
            delivered.push((place, out));
        }
    }
    delivered
}

/// A capture of frames that keep the times of the places they had.
fn capture_of(form: Form, delivered: &[(usize, Vec<u8>)]) -> Vec<u8> {
    let records = delivered
        .iter()
        .flat_map(|(place, frame)| form.record(captures::time(*place), frame));
    form.header().into_iter().chain(records).collect()
}

fn record(learned: bool, label: Label, mac: u64, confidence: u8, seconds: u16) -> [u8; RECORD] {
    write(
        learned,
        &Entry {
            label,
            mac,
            nickname: 0x1234,
            confidence,
            seconds,
            multihomed: false,
        },
    )
}

fn vlan(number: u32) -> Label {
    Label::vlan(number).expect("a VLAN")
}

/// The names of the files in a folder.
fn names(folder: &Path) -> Vec<String> {
    let mut names: Vec<String> = fs::read_dir(folder)
        .expect("the folder")
        .map(|entry| entry.expect("an entry").file_name())
        .map(|name| name.into_string().expect("UTF-8"))
        .collect();
    names.sort();
    names
}

/// The printed text is that of a file of driver/data.
fn expect_text(printed: &str, name: &str) {
    let stored = text(&bytes(&data(name)));
    for (place, (got, wanted)) in printed.lines().zip(stored.lines()).enumerate() {
        assert_eq!(got, wanted, "{name}, line {}", place + 1);
    }
    assert!(printed == stored, "{name}: one has more lines");
}

#[test]
fn the_stored_captures_are_those_of_the_generator() {
    for (name, frames) in captures::all() {
        let stored = bytes(&data(&format!("{name}.pcap")));
        assert!(
            stored == captures::capture(USUAL, &frames),
            "driver/data/{name}.pcap: run `make captures`"
        );
    }
}

#[test]
fn the_worked_example_prints_the_stored_lines() {
    let folder = folder("example");
    let hall = data("hall.pcap");
    let printed = good(&run_in(
        &folder,
        &receive_words(hall.to_str().expect("UTF-8")),
    ));
    expect_text(&printed, "hall.expected");
    let refusals = data("refusals.pcap");
    let printed = good(&run_in(
        &folder,
        &receive_words(refusals.to_str().expect("UTF-8")),
    ));
    expect_text(&printed, "refusals.expected");
}

/// The customer's flush of document 02, 2026-02.
#[test]
fn a_padded_flush_is_carried_out_in_both_formats() {
    let folder = folder("padded");
    let capture = data("padded.pcap");
    let printed = good(&run_in(
        &folder,
        &receive_words(capture.to_str().expect("UTF-8")),
    ));
    expect_text(&printed, "padded.expected");
    assert_eq!(
        printed.matches("| flushed, 1 cleared;").count(),
        3,
        "{printed}"
    );
    assert!(
        printed.contains("a lone last byte that is not 0"),
        "{printed}"
    );
}

#[test]
fn the_refusals_of_a_frame_are_all_in_the_stored_lines() {
    let stored = text(&bytes(&data("refusals.expected")));
    for number in 3..=15 {
        assert!(
            stored.contains(&format!("| refused {number}: ")),
            "{number}"
        );
    }
}

#[test]
fn conversions_print_the_stored_lines_and_write_what_the_second_implementation_does() {
    let folder = folder("convert");
    let frames = frames("to_compact");
    fs::write(folder.join("in"), captures::capture(USUAL, &frames)).expect("a capture");
    let words = [&["compact", "in", "--out", "small"][..], &SETTINGS].concat();
    expect_text(&good(&run_in(&folder, &words)), "to_compact.expected");
    let convert = |frames: &[(usize, Vec<u8>)], call: &dyn Fn(&[u8], &mut [u8]) -> u64| {
        let mut written = Vec::new();
        for (place, frame) in frames {
            let mut out = vec![0; 9_216];
            let word = call(frame, &mut out);
            if word & 0xFF == 64 {
                out.truncate((word >> 8) as usize);
                written.push((*place, out));
            }
        }
        written
    };
    let all: Vec<_> = frames.into_iter().enumerate().collect();
    let small = convert(&all, &|frame, out| reference::compact(&PORT, frame, out));
    assert!(bytes(&folder.join("small")) == capture_of(USUAL, &small));

    for (tag, stored) in [(None, "expanded.expected"), (Some("5"), "tagged.expected")] {
        let source = ["--source", "02-00-00-00-00-B2"];
        let mut words = [
            &["expand", "small", "--out", "large"][..],
            &source,
            &SETTINGS,
        ]
        .concat();
        words.extend(tag.iter().flat_map(|tag| ["--tag", tag]));
        expect_text(&good(&run_in(&folder, &words)), stored);
        let large = convert(&small, &|frame, out| {
            let tagged = u32::from(tag.is_some());
            reference::expand(&PORT, 0x0200_0000_00B2, tagged, 5, frame, out)
        });
        assert!(bytes(&folder.join("large")) == capture_of(USUAL, &large));
    }
}

#[test]
fn expansion_leaves_out_a_general_frame() {
    let folder = folder("general");
    fs::write(
        folder.join("in"),
        captures::capture(USUAL, &frames("lab_to_left")),
    )
    .expect("a capture");
    let source = ["--source", "02-00-00-00-00-B2"];
    let words = [&["expand", "in", "--out", "out"][..], &source, &SETTINGS].concat();
    let printed = good(&run_in(&folder, &words));
    let refused = "left out, refused 18: a General frame given where Compact is required";
    assert_eq!(printed.matches(refused).count(), 4, "{printed}");
    assert!(bytes(&folder.join("out")) == USUAL.header());
}

#[test]
fn each_form_of_capture_gives_the_same_lines_and_keeps_its_form_and_times() {
    let frames = frames("hall");
    for (big_endian, nanoseconds) in [(false, false), (false, true), (true, false), (true, true)] {
        let form = Form {
            big_endian,
            nanoseconds,
        };
        let folder = folder(&format!("form_{big_endian}_{nanoseconds}"));
        fs::write(folder.join("in"), captures::capture(form, &frames)).expect("a capture");
        let mut printed = good(&run_in(&folder, &receive_words("in")));
        // the same numbers are nanoseconds there
        for place in (0..frames.len()).filter(|_| nanoseconds) {
            let (_, fraction) = captures::time(place);
            let nine = format!(".{fraction:09}Z");
            assert!(printed.contains(&nine), "{nine}");
            printed = printed.replace(&nine, &format!(".{fraction:06}Z"));
        }
        expect_text(&printed, "hall.expected");
        let mut table = vec![0; 16 * RECORD];
        let delivered = received(&frames, &mut table);
        assert!(bytes(&folder.join("table")) == table, "{form:?}");
        assert!(
            bytes(&folder.join("out")) == capture_of(form, &delivered),
            "{form:?}"
        );
    }
}

#[test]
fn the_table_is_kept_between_runs() {
    let folder = folder("kept");
    let mut table = vec![0; 16 * RECORD];
    fs::write(
        folder.join("in"),
        captures::capture(USUAL, &frames("lab_to_left")),
    )
    .expect("a capture");
    for answer in ["4 learned, 0 refreshed", "0 learned, 4 refreshed"] {
        let printed = good(&run_in(&folder, &receive_words("in")));
        assert!(printed.contains(answer), "{printed}");
        // the second time the capture is older than the table: no time passes
        if answer.starts_with('4') {
            received(&frames("lab_to_left"), &mut table);
        } else {
            received_at_once(&frames("lab_to_left"), &mut table);
        }
        assert!(bytes(&folder.join("table")) == table);
    }
    // nothing changes in the second run, and the slot is shown all the same
    let printed = good(&run_in(&folder, &receive_words("in")));
    let line =
        "refreshed | table unchanged (slot 1: learned VLAN 20 02-00-00-00-00-11 behind 1234, confidence 32, 1200 s)";
    assert!(printed.contains(line), "{printed}");
    assert_eq!(names(&folder), ["in", "out", "table", "table.aged"]);
}

/// A frame of the worked example's first kind, from another station and VLAN.
fn frame_from(mac: u64, vlan: u16, ingress: u16) -> Vec<u8> {
    let mut frame = frames("hall").swap_remove(0);
    frame[18..20].copy_from_slice(&ingress.to_be_bytes());
    frame[26..32].copy_from_slice(&mac.to_be_bytes()[2..]);
    frame[34..36].copy_from_slice(&vlan.to_be_bytes());
    frame
}

/// A flush to the port of the worked example, from the nickname 1234.
fn flush_frame(payload: &[u8]) -> Vec<u8> {
    let mut frame = frames("lab_flush").swap_remove(0);
    frame.truncate(frame.len() - 6);
    frame.extend(payload);
    frame
}

/// The parts of the line of a frame, between the bars.
fn parts(printed: &str, number: usize) -> Vec<String> {
    let begin = format!("frame {number}: ");
    let line = printed.lines().find(|line| line.starts_with(&begin));
    let line = line.unwrap_or_else(|| panic!("no line of frame {number} in {printed}"));
    line.split(" | ").map(str::to_string).collect()
}

#[test]
fn a_line_costs_about_what_the_call_costs() {
    let folder = folder("cost");
    let stations: Vec<Vec<u8>> = (0..4_000)
        .map(|number| frame_from(0x0200_0100_0000 + number, 10, 0x1234))
        .collect();
    // each station in turn, in an order that leaps
    let frames: Vec<Vec<u8>> = (0..200_000)
        .map(|place| stations[place * 1_237 % 4_000].clone())
        .collect();
    let form = USUAL;
    let records = frames
        .iter()
        .enumerate()
        .flat_map(|(place, frame)| form.record((1_763_280_000 + place as u32 / 10_000, 0), frame));
    let capture: Vec<u8> = form.header().into_iter().chain(records).collect();
    fs::write(folder.join("in"), capture).expect("a capture");
    let files = ["receive", "in", "--table", "table", "--slots", "4096"];
    let time = |more: &[&str]| {
        let words = [&files[..], &SETTINGS, more].concat();
        let run = |_| {
            let _ = fs::remove_file(folder.join("table"));
            let began = Instant::now();
            let printed = good(&run_in(&folder, &words));
            assert!(
                printed.contains("200000 frames: 200000 delivered (4000 learned, 196000 refreshed")
            );
            began.elapsed()
        };
        (0..3).map(run).min().expect("three runs")
    };
    let (quiet, lines) = (time(&["--quiet"]), time(&[]));
    assert!(
        lines <= 5 * quiet,
        "{lines:?} with lines, {quiet:?} without"
    );
}

#[test]
fn a_line_tells_what_a_slot_held_before_and_after() {
    let folder = folder("before_after");
    let mac = 0x0200_0000_0001;
    let mut table = [
        record(true, vlan(10), mac, 20, 17),
        record(false, vlan(11), mac, 1, 0),
        record(true, vlan(12), mac, 200, 17),
    ]
    .concat();
    table.extend([0; RECORD]);
    fs::write(folder.join("table"), &table).expect("a table");
    let frames = [
        frame_from(mac, 10, 0x1235),
        frame_from(mac, 10, 0x1235),
        frame_from(mac, 11, 0x1235),
        frame_from(mac, 12, 0x1235),
        frame_from(mac, 13, 0x1235),
        frame_from(mac, 13, 0x1236),
        flush_frame(&[2, 0x12, 0x35, 0x12, 0x36, 0, 6, 0]),
        frame_from(mac, 14, 0x1235),
    ];
    fs::write(folder.join("in"), captures::capture(USUAL, &frames)).expect("a capture");
    let words = [
        &["receive", "in", "--table", "table", "--no-ageing"][..],
        &SETTINGS,
    ]
    .concat();
    let printed = good(&run_in(&folder, &words));
    let wanted = [
        "slot 0: VLAN 10 02-00-00-00-00-01 behind 1234 -> 1235, confidence 20 -> 32, 17 -> 1200 s",
        "table unchanged (slot 0: learned VLAN 10 02-00-00-00-00-01 behind 1235, confidence 32, 1200 s)",
        "table unchanged (slot 1: configured VLAN 11 02-00-00-00-00-01 behind 1234, confidence 1, 0 s)",
        "table unchanged (slot 2: learned VLAN 12 02-00-00-00-00-01 behind 1234, confidence 200, 17 s)",
        "slot 3: free -> learned VLAN 13 02-00-00-00-00-01 behind 1235, confidence 32, 1200 s",
        "slot 3: VLAN 13 02-00-00-00-00-01 behind 1235 -> 1236",
        "slot 0: VLAN 10 02-00-00-00-00-01 behind 1235 -> free; slot 3: VLAN 13 02-00-00-00-00-01 behind 1236 -> free",
        "slot 0: free -> learned VLAN 14 02-00-00-00-00-01 behind 1235, confidence 32, 1200 s",
    ];
    for (place, wanted) in wanted.iter().enumerate() {
        assert_eq!(parts(&printed, place + 1)[2], *wanted);
    }
    received_at_once(&frames, &mut table);
    assert!(bytes(&folder.join("table")) == table);
}

/// A capture of frames with seconds of their own, counted from the first one of `captures::time`.
fn capture_at(frames: &[(u32, Vec<u8>)]) -> Vec<u8> {
    let (first, _) = captures::time(0);
    let records = frames
        .iter()
        .flat_map(|(second, frame)| USUAL.record((first + second, 999_999), frame));
    USUAL.header().into_iter().chain(records).collect()
}

#[test]
fn the_table_ages_by_the_time_stamps_and_never_backwards() {
    let folder = folder("ageing");
    let from = |number: u64| frame_from(0x0200_0000_0000 + number, 10, 0x1234);
    let frames = [
        (0, from(1)),
        (100, from(2)),
        // a clock that was set back: no time passes until it has caught up
        (40, from(3)),
        (100, from(3)),
        (1199, from(4)),
        // more than 16 bits of seconds, and all at once
        (1200, from(5)),
        (1200 + 70_000, from(6)),
    ];
    fs::write(folder.join("in"), capture_at(&frames)).expect("a capture");
    let printed = good(&run_in(&folder, &receive_words("in")));
    let aged: Vec<&str> = printed
        .lines()
        .filter(|line| line.starts_with("aged: "))
        .collect();
    let slot = |slot: u8, number: u8| {
        format!("slot {slot}: VLAN 10 02-00-00-00-00-0{number} behind 1234 -> free")
    };
    assert_eq!(
        aged,
        [
            format!(
                "aged: 2025-11-16T08:20:00Z 1 seconds passed | 1 became free | {}",
                slot(0, 1)
            ),
            format!(
                "aged: 2025-11-17T03:46:40Z 70000 seconds passed | 4 became free | {}; {}; {}; {}",
                slot(0, 5),
                slot(1, 2),
                slot(2, 3),
                slot(3, 4)
            ),
        ]
    );
    // station 5 took the slot that station 1 left
    assert!(parts(&printed, 6)[2].starts_with("slot 0: free -> learned VLAN 10 02-00-00-00-00-05"));
    let mut table = vec![0; 16 * RECORD];
    let mut clock = 0;
    for (second, frame) in &frames {
        let passed = second.saturating_sub(clock);
        reference::age(passed.min(65_535) as u16, &mut table);
        clock = clock.max(*second);
        reference::receive(&PORT, frame, &mut table, &mut [0; 9_216]);
    }
    assert!(bytes(&folder.join("table")) == table);
    // and without ageing no record goes, and no second is kept
    for name in ["table", "table.aged"] {
        fs::remove_file(folder.join(name)).expect("a file");
    }
    let words = [&receive_words("in")[..], &["--no-ageing"]].concat();
    let printed = good(&run_in(&folder, &words));
    assert!(!printed.contains("aged: "));
    assert!(printed.contains("table: 16 slots, 6 learned, 0 configured, 0 spoilt, 10 free"));
    assert_eq!(names(&folder), ["in", "out", "table"]);
}

#[test]
fn the_second_that_a_table_was_aged_to_is_kept_beside_it() {
    let folder = folder("second");
    let from = |number: u64| frame_from(0x0200_0000_0000 + number, 10, 0x1234);
    let (first, _) = captures::time(0);
    let run = |frames: &[(u32, Vec<u8>)]| {
        fs::write(folder.join("in"), capture_at(frames)).expect("a capture");
        good(&run_in(&folder, &receive_words("in")))
    };
    let second = || {
        let aged = text(&bytes(&folder.join("table.aged")));
        let last = aged.lines().last().expect("a line").to_string();
        last.split(' ')
            .next()
            .expect("a second")
            .parse::<u32>()
            .expect("a number")
            - first
    };
    run(&[(10, from(1))]);
    assert_eq!(second(), 10);
    // the seconds between two runs pass too
    let printed = run(&[(250, from(2))]);
    assert!(printed
        .contains("slot 0: learned VLAN 10 02-00-00-00-00-01 behind 1234, confidence 32, 960 s"));
    assert_eq!(second(), 250);
    // and those that pass by hand
    good(&run_in(&folder, &["age", "--table", "table", "--by", "20"]));
    assert_eq!(second(), 270);
    let printed = run(&[(269, from(3)), (1209, from(4))]);
    assert!(printed
        .contains("slot 0: learned VLAN 10 02-00-00-00-00-01 behind 1234, confidence 32, 1 s"));
    // no time passes without ageing, and none is lost
    let words = [&receive_words("in")[..], &["--no-ageing"]].concat();
    good(&run_in(&folder, &words));
    assert_eq!(second(), 1209);
    let printed = run(&[(1210, from(4))]);
    assert!(
        printed.contains("| 1 became free | slot 0: VLAN 10 02-00-00-00-00-01 behind 1234 -> free")
    );
    // a table that comes without its second ages from the first frame on
    let foreign = [record(true, vlan(10), 0x0200_0000_0009, 1, 5), [0; RECORD]].concat();
    fs::write(
        folder.join("table"),
        [foreign, vec![0; 14 * RECORD]].concat(),
    )
    .expect("a table");
    let printed = run(&[(9_000, from(1)), (9_004, from(1))]);
    assert!(printed
        .contains("slot 0: learned VLAN 10 02-00-00-00-00-09 behind 1234, confidence 1, 1 s"));
    assert_eq!(second(), 9_004);
    // a save that is cut between its two files leaves the old table with its own second
    let old = bytes(&folder.join("table"));
    run(&[(9_100, from(1))]);
    fs::write(folder.join("table"), old).expect("a table");
    let printed = run(&[(9_005, from(1))]);
    assert!(
        printed.contains("aged: 2025-11-16T10:30:05Z 1 seconds passed | 1 became free | slot 0: ")
    );
    // a file of that name that is not the driver's is not written over
    fs::write(folder.join("table.aged"), "my notes\n").expect("a file");
    bad(
        &run_in(&folder, &receive_words("in")),
        1,
        "table.aged holds something other than the second",
    );
    assert_eq!(bytes(&folder.join("table.aged")), b"my notes\n");
}

#[test]
fn a_dry_run_reads_the_table_and_writes_none() {
    let folder = folder("dry");
    let frames = frames("hall");
    fs::write(folder.join("in"), captures::capture(USUAL, &frames)).expect("a capture");
    let words = receive_words("in");
    let printed = good(&run_in(&folder, &[&words[..], &["--dry-run"]].concat()));
    expect_text(&printed, "hall.expected");
    // the capture that was asked for is written all the same
    assert_eq!(names(&folder), ["in", "out"]);
    let delivered = received(&frames, &mut vec![0; 16 * RECORD]);
    assert!(bytes(&folder.join("out")) == capture_of(USUAL, &delivered));
    good(&run_in(&folder, &words));
    let (table, aged) = (
        bytes(&folder.join("table")),
        bytes(&folder.join("table.aged")),
    );
    // it reads also where another process holds the table
    make_pipe(&folder.join("pipe"));
    let files = ["receive", "pipe", "--table", "table"];
    let driver = start_in(&folder, &[&files[..], &SETTINGS].concat());
    let pipe = open_pipe(&folder.join("pipe"));
    good(&run_in(&folder, &[&words[..], &["--dry-run"]].concat()));
    let by_hand = ["age", "--table", "table", "--by", "9999", "--dry-run"];
    let printed = good(&run_in(&folder, &by_hand));
    assert!(printed.contains("3 of 3 learned records became free"));
    drop(pipe);
    driver.wait_with_output().expect("the driver");
    assert!(bytes(&folder.join("table")) == table);
    assert!(bytes(&folder.join("table.aged")) == aged);
}

#[test]
fn a_line_names_eight_cleared_slots_and_counts_the_others() {
    let folder = folder("eight");
    let mut frames: Vec<Vec<u8>> = (0..11)
        .map(|number| frame_from(0x0200_0000_0010 + number, 10, 0x1234))
        .collect();
    frames.push(flush_frame(&[0, 0, 6, 0]));
    fs::write(folder.join("in"), captures::capture(USUAL, &frames)).expect("a capture");
    let printed = good(&run_in(&folder, &receive_words("in")));
    let changes = &parts(&printed, 12)[2];
    assert!(changes.starts_with("slot 0: VLAN 10 02-00-00-00-00-10 behind 1234 -> free; slot 1: "));
    assert!(changes.ends_with("slot 7: VLAN 10 02-00-00-00-00-17 behind 1234 -> free; and 3 more"));
    // of one address, its own slot is named, wherever it stands
    fs::remove_file(folder.join("table")).expect("the table");
    let words = [&receive_words("in")[..], &["--mac", "02-00-00-00-00-1A"]].concat();
    let printed = good(&run_in(&folder, &words));
    let lines: Vec<&str> = printed.lines().collect();
    assert_eq!(lines.len(), 4, "{printed}");
    assert!(lines[0].starts_with("frame 11: "));
    assert!(lines[1].starts_with("frame 12: "));
    assert!(lines[1]
        .ends_with(" | slot 10: VLAN 10 02-00-00-00-00-1A behind 1234 -> free; and 10 more"));
    assert!(lines[2].starts_with("12 frames: "));
    assert!(lines[3].starts_with("table: "));
}

#[test]
fn with_an_address_only_the_lines_that_concern_it_are_printed() {
    let folder = folder("mac");
    let hall = data("hall.pcap");
    let words = receive_words(hall.to_str().expect("UTF-8"));
    let all = good(&run_in(&folder, &words));
    fs::remove_file(folder.join("table")).expect("the table");
    let printed = good(&run_in(
        &folder,
        &[&words[..], &["--mac", "020000000001"]].concat(),
    ));
    let wanted: Vec<&str> = all
        .lines()
        .filter(|line| !line.starts_with("frame ") && !line.starts_with("  slot"))
        .collect();
    // station 1 is the source of frames 1, 2 and 6, and frame 12 clears one of its records
    let lines: Vec<&str> = printed.lines().collect();
    let numbers: Vec<&str> = lines
        .iter()
        .filter_map(|line| line.strip_prefix("frame "))
        .map(|line| line.split(':').next().expect("a number"))
        .collect();
    assert_eq!(numbers, ["1", "2", "6", "12"]);
    let rest: Vec<&str> = lines[4..].to_vec();
    assert_eq!(rest[..wanted.len()], wanted);
    assert_eq!(rest.len(), wanted.len() + 1);
    assert!(
        rest[wanted.len()].starts_with("  slot 1: learned FGL 10 02-00-00-00-00-01 behind 1234")
    );
    // a destination concerns it too
    let printed = good(&run_in(
        &folder,
        &[&words[..], &["--mac", "02000000000D"]].concat(),
    ));
    assert_eq!(printed.matches("frame ").count(), 7, "{printed}");
}

#[test]
fn a_flush_is_told_in_words() {
    let folder = folder("flush_words");
    let mac = [2, 0, 0, 0, 0, 9];
    let tlv = |kind: u8, value: &[u8]| [&[kind, value.len() as u8], value].concat();
    let tlvs = |tlvs: &[Vec<u8>]| [&[0, 0][..], &tlvs.concat()].concat();
    let sender = "nicknames: 1234 (the sender's); labels: ";
    let many: Vec<u8> = (1..=10).flat_map(|number| [0, 0, number * 2]).collect();
    let cases: Vec<(Vec<u8>, String)> = vec![
        (vec![2, 0x12, 0x35, 0, 0, 0], "nicknames: 1235, 0000; labels: none; MACs: all".into()),
        (vec![0, 2, 0, 0, 0x0F, 0xFF, 0xF0, 7, 0xF0, 7, 99], format!("{sender}VLAN 1 to 4094, VLAN 7; MACs: all")),
        (vec![0, 1, 0, 11, 0, 10], format!("{sender}none; MACs: all")),
        (tlvs(&[tlv(1, &[0, 10, 0, 12]), tlv(7, &mac)]), format!("{sender}VLAN 10 to 12; MACs: 02-00-00-00-00-09")),
        (tlvs(&[tlv(2, &[0, 0, 0xC0, 0x07])]), format!("{sender}VLAN 1, VLAN 13 to 15; MACs: all")),
        (tlvs(&[tlv(2, &[0xFF, 0xFD, 0xF0])]), format!("{sender}VLAN 4093 to 4094; MACs: all")),
        (tlvs(&[tlv(3, &[0, 0, 1, 0, 1, 0, 0, 0, 2, 0, 0, 1])]), format!("{sender}FGL 1 to 256; MACs: all")),
        (tlvs(&[tlv(4, &[0, 0, 0, 0xFF, 0xFF, 0xFF])]), format!("{sender}FGL 0, FGL 16777215; MACs: all")),
        (tlvs(&[tlv(5, &[0xFF, 0xFF, 0xFE, 0xFF])]), format!("{sender}FGL 16777214 to 16777215; MACs: all")),
        (tlvs(&[tlv(1, &[0, 10, 0, 12]), tlv(6, &[])]), format!("{sender}all; MACs: all")),
        (
            tlvs(&[tlv(6, &[]), tlv(8, &[[2, 0, 0, 0, 0, 1], mac].concat()), tlv(8, &[mac, [2, 0, 0, 0, 0, 1]].concat())]),
            format!("{sender}all; MACs: 02-00-00-00-00-01 to 02-00-00-00-00-09"),
        ),
        (tlvs(&[tlv(0, &[1]), tlv(9, &[1, 2]), tlv(255, &[])]), format!("{sender}none; MACs: all; TLVs of other types: 3")),
        (
            tlvs(&[tlv(4, &many)]),
            format!("{sender}FGL 2, FGL 4, FGL 6, FGL 8, FGL 10, FGL 12, FGL 14, FGL 16, and 2 more; MACs: all"),
        ),
        (vec![], "byte 0 of the payload: K-nicks is missing".into()),
        (vec![2, 0x12, 0x34, 0x12], "byte 1 of the payload: K-nicks 2 means 4 bytes of nicknames: 3 are left".into()),
        (vec![1, 0x12, 0x34], "byte 3 of the payload: K-VLBs is missing".into()),
        (vec![0, 2, 0, 1, 0, 2, 0], "byte 2 of the payload: K-VLBs 2 means 8 bytes of VLAN blocks: 5 are left".into()),
        (
            tlvs(&[tlv(6, &[]), vec![7]]),
            "byte 4 of the payload: a lone last byte that is not 0, where a TLV has type and length".into(),
        ),
        (tlvs(&[vec![0]]), format!("{sender}none; MACs: all")),
        (tlvs(&[tlv(6, &[]), vec![0]]), format!("{sender}all; MACs: all")),
        (tlvs(&[vec![9, 1]]), "byte 2 of the payload: a TLV of type 9 and length 1 passes the end: 0 bytes are left".into()),
        (tlvs(&[tlv(1, &[0; 3])]), "byte 2 of the payload: a TLV of type 1 has length 3, no multiple of 4".into()),
        (tlvs(&[tlv(2, &[0])]), "byte 2 of the payload: a TLV of type 2 has length 1, under 2".into()),
        (tlvs(&[tlv(3, &[0; 3])]), "byte 2 of the payload: a TLV of type 3 has length 3, no multiple of 6".into()),
        (tlvs(&[tlv(4, &[0; 2])]), "byte 2 of the payload: a TLV of type 4 has length 2, no multiple of 3".into()),
        (tlvs(&[tlv(5, &[0; 2])]), "byte 2 of the payload: a TLV of type 5 has length 2, under 3".into()),
        (tlvs(&[tlv(6, &[0])]), "byte 2 of the payload: a TLV of type 6 has length 1, not 0".into()),
        (tlvs(&[tlv(7, &[0; 7])]), "byte 2 of the payload: a TLV of type 7 has length 7, no multiple of 6".into()),
        (tlvs(&[tlv(8, &[0; 6])]), "byte 2 of the payload: a TLV of type 8 has length 6, no multiple of 12".into()),
    ];
    let frames: Vec<Vec<u8>> = cases
        .iter()
        .map(|(payload, _)| flush_frame(payload))
        .collect();
    fs::write(folder.join("in"), captures::capture(USUAL, &frames)).expect("a capture");
    let printed = good(&run_in(&folder, &receive_words("in")));
    for (place, (payload, words)) in cases.iter().enumerate() {
        let answer = if words.starts_with("byte") {
            format!("refused 15: flush payload corrupt: {words}")
        } else {
            format!("flushed, 0 cleared; {words}")
        };
        assert_eq!(parts(&printed, place + 1)[1], answer, "{payload:?}");
    }
}

#[test]
fn the_driver_calls_a_payload_corrupt_exactly_where_the_library_refuses_it() {
    let folder = folder("flush_reading");
    let mut random = Random::new(16);
    let pool = generate::Pool::new(&mut random);
    let mut payloads: Vec<Vec<u8>> = Vec::new();
    for _ in 0..3_000 {
        let mut payload = generate::payload(&mut random, &pool);
        payload.truncate(9_000);
        let cut = random.length(0, payload.len());
        payloads.push(payload[..cut].to_vec());
        if !payload.is_empty() {
            let mut changed = payload.clone();
            generate::change_one_byte(&mut random, &mut changed);
            payloads.push(changed);
        }
        payloads.push(payload);
    }
    let frames: Vec<Vec<u8>> = payloads
        .iter()
        .map(|payload| flush_frame(payload))
        .collect();
    fs::write(folder.join("in"), captures::capture(USUAL, &frames)).expect("a capture");
    let printed = good(&run_in(&folder, &receive_words("in")));
    let lines: Vec<&str> = printed.lines().collect();
    let mut corrupt = 0;
    for (place, payload) in payloads.iter().enumerate() {
        let refused = reference::flush(0x1234, payload, &mut [0; RECORD]) == 15;
        let begin = format!("frame {}: ", place + 1);
        assert!(lines[place].starts_with(&begin));
        let answer = lines[place].split(" | ").nth(1).expect("an answer");
        let words = if refused {
            "refused 15: flush payload corrupt: byte "
        } else {
            "flushed, 0 cleared; nicknames: "
        };
        assert!(answer.starts_with(words), "{payload:?}: {answer}");
        corrupt += usize::from(refused);
    }
    assert!(
        corrupt > 1_000 && corrupt < payloads.len() - 1_000,
        "{corrupt} of {}",
        payloads.len()
    );
}

/// The values of a flat walk through one JSON object, as texts; it panics where the line is no JSON object.
fn json_values(line: &str) -> Vec<String> {
    fn value(rest: &mut &str, found: &mut Vec<String>) {
        let first = rest.chars().next().expect("a value");
        match first {
            '{' | '[' => {
                *rest = &rest[1..];
                let close = if first == '{' { '}' } else { ']' };
                if let Some(behind) = rest.strip_prefix(close) {
                    *rest = behind;
                    return;
                }
                loop {
                    if first == '{' {
                        text_value(rest);
                        *rest = rest.strip_prefix(':').expect("a colon");
                    }
                    value(rest, found);
                    let next = rest.chars().next().expect("a comma or the end");
                    *rest = &rest[1..];
                    if next == close {
                        return;
                    }
                    assert_eq!(next, ',', "{rest}");
                }
            }
            '"' => found.push(text_value(rest)),
            _ => {
                let end = rest.find([',', '}', ']']).expect("an end");
                let (word, behind) = rest.split_at(end);
                let is_word = ["null", "true", "false"].contains(&word);
                assert!(is_word || word.parse::<u64>().is_ok(), "{word}");
                found.push(word.to_string());
                *rest = behind;
            }
        }
    }
    fn text_value(rest: &mut &str) -> String {
        let mut text = String::new();
        let mut letters = rest.strip_prefix('"').expect("a text").chars();
        loop {
            match letters.next().expect("the end of a text") {
                '"' => break,
                '\\' => text.push(letters.next().expect("a letter")),
                letter => {
                    assert!(letter >= ' ');
                    text.push(letter);
                }
            }
        }
        *rest = letters.as_str();
        text
    }
    let mut rest = line;
    let mut found = Vec::new();
    assert!(rest.starts_with('{'), "{line}");
    value(&mut rest, &mut found);
    assert_eq!(rest, "", "{line}");
    found
}

/// Every number, address and nickname of the lines is a part of a value of the object in its place.
fn same_facts(lines: &str, objects: &str) {
    assert_eq!(lines.lines().count(), objects.lines().count());
    for (line, object) in lines.lines().zip(objects.lines()) {
        let values = json_values(object).join(" ");
        let tokens = line.split(|letter: char| !letter.is_ascii_hexdigit() && letter != '-');
        for token in tokens.filter(|token| token.contains(|letter: char| letter.is_ascii_digit())) {
            let token = token.trim_matches('-');
            assert!(
                values.contains(token),
                "`{token}` of `{line}` is not in {object}"
            );
        }
    }
}

#[test]
fn json_has_an_object_for_each_line_with_the_same_facts() {
    let folder = folder("json");
    let both = |words: &[&str], clean: &[&str], status: i32| {
        let run = |more: &[&str]| {
            for name in clean {
                let _ = fs::remove_file(folder.join(name));
            }
            let output = run_in(&folder, &[words, more].concat());
            assert_eq!(
                output.status.code(),
                Some(status),
                "{}",
                text(&output.stderr)
            );
            text(&output.stdout)
        };
        let objects = run(&["--json"]);
        same_facts(&run(&[]), &objects);
        objects
    };
    for name in ["hall", "refusals"] {
        let capture = data(&format!("{name}.pcap"));
        let objects = both(
            &receive_words(capture.to_str().expect("UTF-8")),
            &["table"],
            0,
        );
        assert!(
            objects.contains("\"answer\":\"refused\",\"refusal\":15,"),
            "{objects}"
        );
    }
    let capture = data("to_compact.pcap");
    let files = [
        "compact",
        capture.to_str().expect("UTF-8"),
        "--out",
        "small",
    ];
    both(&[&files[..], &SETTINGS].concat(), &[], 0);
    let source = ["--source", "02-00-00-00-00-B2"];
    both(
        &[
            &["expand", "small", "--out", "large"][..],
            &source,
            &SETTINGS,
        ]
        .concat(),
        &[],
        0,
    );
    let table = [
        record(true, vlan(10), 0x0200_0000_0001, 32, 300),
        [0xC0; RECORD],
    ]
    .concat();
    fs::write(folder.join("table"), table).expect("a table");
    both(&["check", "--table", "table"], &[], 1);
    both(&["age", "--table", "table", "--by", "0"], &[], 0);
    let lookup = ["lookup", "--table", "table", "--vlan", "10", "--mac"];
    both(&[&lookup[..], &["02-00-00-00-00-01"]].concat(), &[], 0);
    both(&[&lookup[..], &["02-00-00-00-00-02"]].concat(), &[], 1);
    fs::write(folder.join("table"), [0; RECORD]).expect("a table");
    both(&["check", "--table", "table"], &[], 0);
}

#[test]
fn configured_records_and_a_full_table_are_said() {
    let folder = folder("full");
    fs::write(
        folder.join("in"),
        captures::capture(USUAL, &frames("lab_to_left")),
    )
    .expect("a capture");
    let mut table = record(false, vlan(10), 0x0200_0000_0010, 1, 0).to_vec();
    fs::write(folder.join("table"), &table).expect("a table");
    let words = [&["receive", "in", "--table", "table"][..], &SETTINGS].concat();
    let printed = good(&run_in(&folder, &words));
    let totals = "4 delivered (0 learned, 0 refreshed, 1 kept, 3 full)";
    let kept = "kept | table unchanged (slot 0: configured VLAN 10 02-00-00-00-00-10 behind 1234, confidence 1, 0 s)";
    let full = "not learned: the table is full | table unchanged\n";
    assert!(printed.contains(totals), "{printed}");
    assert!(printed.contains(kept), "{printed}");
    assert_eq!(printed.matches(full).count(), 3, "{printed}");
    received(&frames("lab_to_left"), &mut table);
    assert!(bytes(&folder.join("table")) == table);
}

#[test]
fn of_a_capture_cut_at_any_byte_every_whole_frame_counts() {
    let folder = folder("cut");
    let frames = frames("hall");
    let whole = captures::capture(USUAL, &frames);
    let ends: Vec<usize> = (0..=frames.len())
        .map(|count| captures::capture(USUAL, &frames[..count]).len())
        .collect();
    let old = vec![0; 16 * RECORD];
    // every byte of the header and the first two records, every end, and a part of the rest
    let tried = |length: &usize| *length < ends[2] || ends.contains(length) || length % 7 == 0;
    for length in (0..whole.len()).filter(tried) {
        fs::write(folder.join("in"), &whole[..length]).expect("a capture");
        fs::write(folder.join("table"), &old).expect("a table");
        fs::write(folder.join("out"), "old").expect("an output");
        let _ = fs::remove_file(folder.join("table.aged"));
        let output = run_in(&folder, &receive_words("in"));
        // the whole frames that the capture has; none where its header is cut
        let Some(count) = ends.iter().rposition(|end| *end <= length) else {
            bad(
                &output,
                1,
                &format!("in ends inside its header: {length} of 24 bytes"),
            );
            assert!(bytes(&folder.join("table")) == old);
            assert_eq!(bytes(&folder.join("out")), b"old");
            continue;
        };
        if length == ends[count] {
            good(&output);
        } else {
            let record = format!(
                "in, record {}, at byte {}: the capture ends inside ",
                count + 1,
                ends[count]
            );
            bad(&output, 1, &record);
        }
        assert!(text(&output.stdout).contains(&format!("{count} frames: ")));
        let mut table = old.clone();
        let delivered = received(&frames[..count], &mut table);
        assert!(bytes(&folder.join("table")) == table, "{length}");
        assert!(
            bytes(&folder.join("out")) == capture_of(USUAL, &delivered),
            "{length}"
        );
        let files = ["in", "out", "table", "table.aged"];
        assert_eq!(names(&folder), files[..3 + usize::from(count > 0)]);
    }
}

#[test]
fn conversions_keep_what_came_before_a_cut() {
    let folder = folder("cut_convert");
    let frames = frames("to_compact");
    let whole = captures::capture(USUAL, &frames);
    fs::write(folder.join("in"), &whole[..whole.len() - 1]).expect("a capture");
    let words = [&["compact", "in", "--out", "out"][..], &SETTINGS].concat();
    let output = run_in(&folder, &words);
    bad(&output, 1, "in, record 7, at byte ");
    assert!(text(&output.stdout).contains("6 frames: 3 compacted, 3 left out\n"));
    let wanted = folder.join("wanted");
    fs::write(folder.join("in"), captures::capture(USUAL, &frames[..6])).expect("a capture");
    let words = [&["compact", "in", "--out", "wanted"][..], &SETTINGS].concat();
    good(&run_in(&folder, &words));
    assert!(bytes(&folder.join("out")) == bytes(&wanted));
}

#[test]
fn bad_captures_are_refused_with_a_message() {
    let folder = folder("bad");
    let whole = captures::capture(USUAL, &frames("hall"));
    let with = |at: usize, changed: &[u8]| {
        let mut capture = whole.clone();
        capture[at..at + changed.len()].copy_from_slice(changed);
        capture
    };
    // the first record begins at byte 24, and its two lengths, both 84, at 32
    let cases: [(Vec<u8>, &str); 9] = [
        (Vec::new(), "in ends inside its header: 0 of 24 bytes"),
        (with(0, b"GIF8"), "in is no pcap or pcapng capture: it begins 47 49 46 38"),
        (with(4, &[3]), "in has version 3.4 of the pcap format"),
        (with(20, &[101]), "in has link type 101 (raw IP), not 1 (Ethernet without FCS)"),
        (with(20, &[113]), "in has link type 113 (Linux cooked), not 1"),
        (with(20, &[1, 0, 0, 0x24]), "in has link type 1 (Ethernet with an FCS), not 1"),
        (with(32, &[0, 0, 5]), "in, record 1, at byte 24: longer than any frame: 327680 of 262144 bytes"),
        (with(36, &[100]), "in, record 1, at byte 24: holds only a part of its frame (captured with a short snap length?): 84 of 100 bytes"),
        (with(36, &[80]), "in, record 1, at byte 24: holds more than its frame: 84 of 80 bytes"),
    ];
    for (capture, words) in cases {
        fs::write(folder.join("in"), capture).expect("a capture");
        bad(&run_in(&folder, &receive_words("in")), 1, words);
        assert_eq!(names(&folder), ["in"], "{words}");
    }
    bad(
        &run_in(&folder, &receive_words("none")),
        1,
        "none cannot be opened: No such file",
    );
}

/// A pcapng file in the making, in one byte order.
struct Blocks {
    big_endian: bool,
    bytes: Vec<u8>,
}

impl Blocks {
    fn number(&self, value: u32) -> Vec<u8> {
        self.turned(&value.to_be_bytes())
    }

    fn short(&self, value: u16) -> Vec<u8> {
        self.turned(&value.to_be_bytes())
    }

    /// The bytes of a number, first byte first, in the order of the section.
    fn turned(&self, bytes: &[u8]) -> Vec<u8> {
        let mut bytes = bytes.to_vec();
        if !self.big_endian {
            bytes.reverse();
        }
        bytes
    }

    fn block(&mut self, kind: u32, body: &[Vec<u8>]) {
        let mut body = body.concat();
        body.resize(body.len().next_multiple_of(4), 0);
        let length = self.number(body.len() as u32 + 12);
        let block = [self.number(kind), length.clone(), body, length].concat();
        self.bytes.extend(block);
    }

    fn section(&mut self, big_endian: bool) {
        self.big_endian = big_endian;
        let length = self.turned(&u64::MAX.to_be_bytes());
        let body = [
            self.number(0x1A2B_3C4D),
            self.short(1),
            self.short(0),
            length,
        ];
        self.block(0x0A0D_0D0A, &body);
    }

    /// An option of a block.
    fn option(&self, code: u16, value: &[u8]) -> Vec<u8> {
        let mut option = [self.short(code), self.short(value.len() as u16)].concat();
        option.extend(value);
        option.resize(option.len().next_multiple_of(4), 0);
        option
    }

    fn interface(&mut self, link: u16, options: &[Vec<u8>]) {
        let front = [self.short(link), self.short(0), self.number(0)].concat();
        let end = self.option(0, &[]);
        self.block(1, &[front, options.concat(), end]);
    }

    /// An enhanced packet, or with the kind 2 an old one; `units` is its time in the interface's units.
    fn packet(&mut self, kind: u32, interface: u16, units: u64, frame: &[u8]) {
        let index = if kind == 6 {
            self.number(u32::from(interface))
        } else {
            [self.short(interface), self.short(0xFFFF)].concat()
        };
        let time = [self.number((units >> 32) as u32), self.number(units as u32)].concat();
        let length = self.number(frame.len() as u32);
        let mut held = frame.to_vec();
        held.resize(frame.len().next_multiple_of(4), 0);
        let options = [self.option(1, b"a comment"), self.option(0, &[])].concat();
        self.block(kind, &[index, time, length.clone(), length, held, options]);
    }
}

#[test]
fn pcapng_with_sections_interfaces_and_resolutions_reads_as_the_same_classic_capture() {
    let frames = frames("hall");
    // seconds and nanoseconds of each frame; those of the coarser interfaces are multiples of what they can tell
    let time = |place: usize| -> (u64, u64) {
        let fraction = match place % 4 {
            0 => 123_456_789,
            1 => 123_456_000,
            2 => 250_000_000,
            _ => 500_000_000,
        };
        (1_763_280_000 + place as u64, fraction)
    };
    for first_order in [false, true] {
        let mut file = Blocks {
            big_endian: first_order,
            bytes: Vec::new(),
        };
        file.section(first_order);
        for (place, frame) in frames.iter().enumerate() {
            if place == 7 {
                // another section, in the other order, with interfaces of its own
                file.section(!first_order);
            }
            if place == 0 || place == 7 {
                let offset = file.turned(&1_000_000_000i64.to_be_bytes());
                file.interface(1, &[file.option(9, &[9])]);
                file.interface(1, &[file.option(2, b"eth1")]);
                // quarters of a second from an offset on; tenths of nanoseconds; an interface that no packet is of
                file.interface(1, &[file.option(9, &[0x82]), file.option(14, &offset)]);
                file.interface(1, &[file.option(9, &[10])]);
                file.interface(101, &[]);
            }
            // blocks that are not known: custom, name resolution, statistics
            file.block(0x0BAD, &[vec![1, 2, 3, 4, 5]]);
            file.block(4, &[vec![0; 4]]);
            file.block(5, &[vec![0; 12]]);
            let (seconds, fraction) = time(place);
            let (kind, interface, units) = match place % 4 {
                0 => (6, 0, seconds * 1_000_000_000 + fraction),
                1 => (6, 1, seconds * 1_000_000 + fraction / 1_000),
                2 => (2, 2, (seconds - 1_000_000_000) * 4 + fraction / 250_000_000),
                _ => (6, 3, seconds * 10_000_000_000 + fraction * 10),
            };
            file.packet(kind, interface, units, frame);
        }
        // a simple packet has no time: it keeps the one before
        let last = frames[0].clone();
        let mut body = file.number(last.len() as u32);
        body.extend(&last);
        file.block(3, &[body]);

        let folder = folder(&format!("pcapng_{first_order}"));
        fs::write(folder.join("in"), &file.bytes).expect("a capture");
        let form = Form {
            big_endian: first_order,
            nanoseconds: true,
        };
        let classic = frames
            .iter()
            .enumerate()
            .chain([(frames.len() - 1, &last)])
            .flat_map(|(place, frame)| {
                let (seconds, fraction) = time(place);
                form.record((seconds as u32, fraction as u32), frame)
            });
        let classic: Vec<u8> = form.header().into_iter().chain(classic).collect();
        let printed = good(&run_in(&folder, &receive_words("in")));
        let out = bytes(&folder.join("out"));
        let table = bytes(&folder.join("table"));
        for name in ["table", "out"] {
            fs::remove_file(folder.join(name)).expect("a file");
        }
        fs::write(folder.join("in"), classic).expect("a capture");
        assert_eq!(printed, good(&run_in(&folder, &receive_words("in"))));
        assert!(out == bytes(&folder.join("out")));
        assert!(table == bytes(&folder.join("table")));
    }
}

#[test]
fn bad_pcapng_captures_are_refused_with_a_message() {
    let folder = folder("bad_pcapng");
    let frame = frames("hall").swap_remove(0);
    let make = |build: &dyn Fn(&mut Blocks)| {
        let mut file = Blocks {
            big_endian: false,
            bytes: Vec::new(),
        };
        file.section(false);
        build(&mut file);
        file.bytes
    };
    let with = |link: u16, options: &dyn Fn(&Blocks) -> Vec<u8>| {
        make(&|file| {
            let options = options(file);
            file.interface(link, &[options]);
            file.packet(6, 0, 1, &frame);
        })
    };
    let good_file = with(1, &|_| Vec::new());
    let changed = |at: usize, byte: u8| {
        let mut file = good_file.clone();
        file[at] = byte;
        file
    };
    // the section has 28 bytes, the interface 24; the packet's lengths are at 72 and 76
    let cases: Vec<(Vec<u8>, &str)> = vec![
        (
            changed(8, 0),
            "in, at byte 0: a section with the byte order 00 3C 2B 1A",
        ),
        (changed(12, 2), "in has version 2.0 of the pcapng format"),
        (changed(24, 1), "a block with two lengths: 1 of 28 bytes"),
        (changed(32, 25), "a block's length is no multiple of 4"),
        (changed(32, 8), "a block that is too short: 8 of 20 bytes"),
        (
            changed(60, 1),
            "in, record 1: its interface is 1, and there are 1",
        ),
        (changed(72, 83), "holds only a part of its frame"),
        (changed(76, 83), "holds more than its frame"),
        (
            with(113, &|_| Vec::new()),
            "in, record 1: interface 0 has link type 113 (Linux cooked), not 1",
        ),
        (
            with(1, &|file| file.option(13, &[32])),
            "(Ethernet with an FCS)",
        ),
        (
            with(1, &|file| file.option(9, &[20])),
            "a time resolution that is too fine",
        ),
        (
            with(1, &|file| {
                file.option(14, &file.turned(&(-1i64).to_be_bytes()))
            }),
            "in, record 1: a time stamp outside the years 1970 to 2106",
        ),
    ];
    for (capture, words) in cases {
        fs::write(folder.join("in"), capture).expect("a capture");
        bad(&run_in(&folder, &receive_words("in")), 1, words);
        assert_eq!(names(&folder), ["in"], "{words}");
    }
    // cut in its last block, it counts up to there; cut in the first one there is nothing to count
    for length in 4..good_file.len() {
        fs::write(folder.join("in"), &good_file[..length]).expect("a capture");
        let output = run_in(&folder, &receive_words("in"));
        if length == 28 || length == 52 {
            good(&output);
        } else {
            bad(&output, 1, "in, record 1, at byte ");
            assert!(text(&output.stderr).contains("the capture ends inside the "));
        }
        assert_eq!(text(&output.stdout).contains("0 frames: "), length >= 28);
        let _ = fs::remove_file(folder.join("table"));
    }
}

#[test]
fn a_table_file_that_is_no_table_is_refused() {
    let folder = folder("no_table");
    fs::write(folder.join("in"), captures::capture(USUAL, &frames("hall"))).expect("a capture");
    for length in [0, RECORD - 1, RECORD + 1, TABLE + 1, TABLE + RECORD] {
        fs::write(folder.join("table"), vec![0; length]).expect("a table");
        let words = match length {
            OLD_RECORD => "table has records of 14 bytes; `widen` makes them 15",
            _ => "refused 2: table length 0, not a multiple of 15, or over 61,440",
        };
        for command in [
            receive_words("in"),
            vec!["check", "--table", "table"],
            vec!["age", "--table", "table", "--by", "1"],
        ] {
            bad(&run_in(&folder, &command), 1, words);
        }
        assert_eq!(bytes(&folder.join("table")).len(), length);
        assert_eq!(names(&folder), ["in", "table"]);
    }
    fs::write(folder.join("table"), [0; 2 * RECORD]).expect("a table");
    bad(
        &run_in(&folder, &receive_words("in")),
        1,
        "table has 2 slots, and --slots says 16",
    );
    fs::remove_file(folder.join("table")).expect("the table");
    bad(
        &run_in(&folder, &["check", "--table", "table"]),
        1,
        "table is not there",
    );
}

#[test]
fn files_are_replaced_whole_or_not_at_all() {
    let folder = folder("whole");
    let old = vec![0; 16 * RECORD];
    let stay = |names_wanted: &[&str]| {
        assert!(bytes(&folder.join("table")) == old);
        assert_eq!(names(&folder), names_wanted);
    };
    fs::write(folder.join("in"), captures::capture(USUAL, &frames("hall"))).expect("a capture");
    fs::write(folder.join("table"), &old).expect("a table");
    let words = receive_words("in");
    let alone = [&["receive", "in", "--table", "table"][..], &SETTINGS].concat();
    // No file may grow: the output capture fails, or the table. A full disk fails in the same calls.
    let output = shell_in(&folder, "ulimit -f 0; exec \"$@\"", &words);
    bad(&output, 1, "out cannot be written: File too large");
    stay(&["in", "table"]);
    let output = shell_in(&folder, "ulimit -f 0; exec \"$@\"", &alone);
    bad(&output, 1, "table cannot be written: File too large");
    stay(&["in", "table"]);
    // the report cannot be printed
    let output = shell_in(&folder, "exec \"$@\" >/dev/full", &words);
    bad(
        &output,
        1,
        "standard output cannot be written: No space left",
    );
    stay(&["in", "table"]);
    // The output's folder is missing; a pipe is not replaced. The pipe stands for a device and lies in the test's own folder: a driver
    // that did replace it would do so to /dev/null as well, were it named here and the test run by root.
    make_pipe(&folder.join("pipe"));
    for (out, said) in [
        ("no/out", "no/out cannot be written: No such file"),
        ("pipe", "pipe is not a regular file"),
    ] {
        let output = run_in(&folder, &[&alone[..], &["--out", out]].concat());
        bad(&output, 1, said);
        stay(&["in", "pipe", "table"]);
    }
    let output = shell_in(
        &folder,
        "ulimit -f 0; exec \"$@\"",
        &["age", "--table", "table", "--by", "9"],
    );
    bad(&output, 1, "table cannot be written: File too large");
    stay(&["in", "pipe", "table"]);
    // and with nothing in the way it is replaced
    good(&run_in(&folder, &words));
    assert!(bytes(&folder.join("table")) != old);
    assert_eq!(names(&folder), ["in", "out", "pipe", "table", "table.aged"]);
}

#[test]
fn a_signal_leaves_no_temporary_file_and_the_old_table() {
    for name in [
        "INT", "TERM", "HUP", "QUIT", "ALRM", "USR2", "VTALRM", "PROF", "XCPU", "IO", "34",
    ] {
        let folder = folder(&format!("signal_{name}"));
        let old = vec![0; 16 * RECORD];
        fs::write(folder.join("table"), &old).expect("a table");
        fs::create_dir(folder.join("made")).expect("a folder");
        make_pipe(&folder.join("in"));
        let files = ["receive", "in", "--table", "table", "--out", "made/out"];
        let driver = start_in(&folder, &[&files[..], &SETTINGS].concat());
        // a capture that does not end yet
        let mut pipe = open_pipe(&folder.join("in"));
        pipe.write_all(&captures::capture(USUAL, &frames("hall")))
            .expect("frames");
        // it is written beside the file it is to replace, so that the renaming is one step
        await_that("a temporary file in made/", || {
            names(&folder.join("made"))
                .iter()
                .any(|name| name.starts_with("out."))
        });
        signal(&driver, name);
        // where the signal came between two reads, the end of the capture comes next
        drop(pipe);
        let output = driver.wait_with_output().expect("the driver");
        bad(&output, 1, "table stays as it was");
        assert!(text(&output.stderr).contains("interrupted after "));
        assert!(bytes(&folder.join("table")) == old);
        assert_eq!(names(&folder), ["in", "made", "table"]);
        assert_eq!(names(&folder.join("made")), [""; 0]);
    }
}

#[test]
fn what_a_killed_driver_leaves_is_taken_away_at_the_next_start() {
    let folder = folder("killed");
    fs::write(folder.join("table"), [0; 16 * RECORD]).expect("a table");
    make_pipe(&folder.join("in"));
    let mut driver = start_in(&folder, &receive_words("in"));
    let mut pipe = open_pipe(&folder.join("in"));
    pipe.write_all(&USUAL.header()).expect("a header");
    let lock = "table.shinglebar-lock".to_string();
    let left = "out.shinglebar-new".to_string();
    await_that("the driver's files", || {
        names(&folder).contains(&lock) && names(&folder).contains(&left)
    });
    driver.kill().expect("kill");
    driver.wait().expect("the driver");
    drop(pipe);
    assert_eq!(names(&folder).len(), 4);
    // a save that was cut short
    fs::write(folder.join("table.shinglebar-new"), "half").expect("a file");
    fs::write(folder.join("table.aged.shinglebar-new"), "half").expect("a file");
    fs::remove_file(folder.join("in")).expect("the pipe");
    fs::write(folder.join("in"), captures::capture(USUAL, &frames("hall"))).expect("a capture");
    good(&run_in(&folder, &receive_words("in")));
    let mut table = vec![0; 16 * RECORD];
    received(&frames("hall"), &mut table);
    assert!(bytes(&folder.join("table")) == table);
    assert_eq!(names(&folder), ["in", "out", "table", "table.aged"]);
}

#[test]
fn the_second_of_two_processes_on_one_table_is_refused() {
    let folder = folder("two");
    let old = [&[0; 15 * RECORD][..], &record(true, vlan(9), 1, 1, 9)].concat();
    fs::write(folder.join("table"), &old).expect("a table");
    symlink("table", folder.join("link")).expect("a link");
    make_pipe(&folder.join("in"));
    let driver = start_in(&folder, &receive_words("in"));
    let mut pipe = open_pipe(&folder.join("in"));
    let said = format!("is in use by process {}", driver.id());
    fs::write(folder.join("empty"), USUAL.header()).expect("a capture");
    let other = ["receive", "empty", "--table", "table"];
    for words in [
        &[&other[..], &SETTINGS].concat()[..],
        &["age", "--table", "table", "--by", "9"],
        &["age", "--table", "link", "--by", "9"],
    ] {
        bad(&run_in(&folder, words), 1, &said);
    }
    // reading it is nobody's loss
    good(&run_in(&folder, &["check", "--table", "table"]));
    assert!(bytes(&folder.join("table")) == old);
    // the first has all it learned, and lets go
    let frames = frames("hall");
    pipe.write_all(&captures::capture(USUAL, &frames))
        .expect("frames");
    drop(pipe);
    good(&driver.wait_with_output().expect("the driver"));
    let mut table = old;
    received(&frames, &mut table);
    assert!(bytes(&folder.join("table")) == table);
    good(&run_in(&folder, &["age", "--table", "link", "--by", "9"]));
    assert_eq!(
        names(&folder),
        ["empty", "in", "link", "out", "table", "table.aged"]
    );
}

#[test]
fn the_second_of_two_processes_on_a_table_to_be_made_is_refused() {
    let folder = folder("two_new");
    make_pipe(&folder.join("in"));
    let driver = start_in(&folder, &receive_words("in"));
    let pipe = open_pipe(&folder.join("in"));
    let other = [
        "receive", "in", "--table", "./table", "--slots", "16", "--quiet",
    ];
    let output = run_in(&folder, &[&other[..], &SETTINGS].concat());
    bad(&output, 1, "./table is in use by process ");
    // and so is one that would write the same capture
    let mut pipe = pipe;
    pipe.write_all(&USUAL.header()).expect("a header");
    await_that("the driver's output", || {
        names(&folder).contains(&"out.shinglebar-new".to_string())
    });
    fs::write(folder.join("empty"), USUAL.header()).expect("a capture");
    let other = [
        "receive", "empty", "--table", "t", "--slots", "1", "--out", "out",
    ];
    let output = run_in(&folder, &[&other[..], &SETTINGS].concat());
    bad(&output, 1, "out is being written by another process");
    drop(pipe);
    good(&driver.wait_with_output().expect("the driver"));
    assert_eq!(names(&folder), ["empty", "in", "out", "table"]);
}

#[test]
fn a_table_that_is_replaced_keeps_owner_group_and_mode() {
    let folder = folder("owner");
    let table = folder.join("table");
    fs::write(&table, record(true, vlan(10), 1, 1, 9)).expect("a table");
    // only root gives a file away; the mode is anybody's to choose
    let root = fs::metadata(&table).expect("the table").uid() == 0;
    if root {
        chown(&table, Some(12_345), Some(23_456)).expect("chown");
    }
    fs::set_permissions(&table, fs::Permissions::from_mode(0o2660)).expect("chmod");
    let old = fs::metadata(&table).expect("the table");
    good(&run_in(&folder, &["age", "--table", "table", "--by", "9"]));
    let new = fs::metadata(&table).expect("the table");
    assert_eq!(bytes(&table), [0; RECORD]);
    assert_ne!(new.ino(), old.ino());
    assert_eq!(
        (new.uid(), new.gid(), new.mode()),
        (old.uid(), old.gid(), old.mode())
    );
    assert_eq!(new.uid() == 12_345, root);
}

#[test]
fn whether_the_table_can_be_written_is_known_before_the_capture_is_read() {
    let folder = folder("writable");
    make_pipe(&folder.join("in"));
    make_pipe(&folder.join("pipe"));
    for (table, said) in [
        ("no/table", "no/table cannot be written: No such file"),
        ("pipe", "pipe is not a regular file, and is not replaced"),
    ] {
        let files = ["receive", "in", "--table", table, "--slots", "16"];
        let words = [&files[..], &SETTINGS].concat();
        // a driver that opened the capture would wait for it
        let output = shell_in(&folder, "exec timeout 5 \"$@\"", &words);
        bad(&output, 1, said);
    }
    assert_eq!(names(&folder), ["in", "pipe"]);
}

#[test]
fn a_link_to_a_table_that_is_not_there_is_followed() {
    let folder = folder("dangling");
    fs::create_dir(folder.join("there")).expect("a folder");
    symlink("there/next", folder.join("table")).expect("a link");
    symlink("real", folder.join("there/next")).expect("a link");
    fs::write(folder.join("in"), captures::capture(USUAL, &frames("hall"))).expect("a capture");
    good(&run_in(&folder, &receive_words("in")));
    let mut table = vec![0; 16 * RECORD];
    received(&frames("hall"), &mut table);
    assert!(bytes(&folder.join("there/real")) == table);
    for link in ["table", "there/next"] {
        let found = fs::symlink_metadata(folder.join(link)).expect("the link");
        assert!(found.is_symlink(), "{link}");
    }
    assert_eq!(names(&folder.join("there")), ["next", "real", "real.aged"]);
    assert_eq!(names(&folder), ["in", "out", "table", "there"]);
}

#[test]
fn a_link_to_the_table_stays_a_link() {
    let folder = folder("link");
    fs::create_dir(folder.join("there")).expect("a folder");
    fs::write(folder.join("there/table"), record(true, vlan(10), 1, 1, 9)).expect("a table");
    symlink("there/table", folder.join("table")).expect("a link");
    good(&run_in(&folder, &["age", "--table", "table", "--by", "9"]));
    assert!(fs::symlink_metadata(folder.join("table"))
        .expect("the link")
        .is_symlink());
    assert_eq!(bytes(&folder.join("there/table")), [0; RECORD]);
}

#[test]
fn lookup_age_and_check_answer_of_a_table_file() {
    let folder = folder("inspect");
    let fine = Label::fine(70_000).expect("a label");
    let mut table = [
        record(true, vlan(10), 0x0200_0000_0001, 32, 300),
        record(false, fine, 0x0200_0000_0002, 7, 0),
        [0; RECORD],
        record(true, vlan(10), 0x0200_0000_0003, 255, 8_191),
    ]
    .concat();
    fs::write(folder.join("table"), &table).expect("a table");
    let lookup = |kind: &str, label: &str, mac: &str| {
        let words = ["lookup", "--table", "table", kind, label, "--mac", mac];
        good(&run_in(&folder, &words))
    };
    let found = "FGL 70000 02-00-00-00-00-02 is behind 1234\n";
    assert_eq!(lookup("--fgl", "70000", "02-00-00-00-00-02"), found);
    assert_eq!(lookup("--fgl", "0x11170", "02:00:00:00:00:02"), found);
    assert_eq!(lookup("--fgl", "70000", "020000000002"), found);
    let words = [
        "lookup",
        "--table",
        "table",
        "--fgl",
        "10",
        "--mac",
        "020000000001",
    ];
    let output = run_in(&folder, &words);
    assert_eq!(output.status.code(), Some(1));
    assert_eq!(
        text(&output.stdout),
        "FGL 10 02-00-00-00-00-01 is not known\n"
    );
    assert_eq!(text(&output.stderr), "");

    let printed = good(&run_in(
        &folder,
        &["age", "--table", "table", "--by", "300"],
    ));
    assert_eq!(
        printed,
        "300 seconds passed: 1 of 2 learned records became free\n\
         table: 4 slots, 1 learned, 1 configured, 0 spoilt, 2 free\n  \
         slot 1: configured FGL 70000 02-00-00-00-00-02 behind 1234, confidence 7, 0 s\n  \
         slot 3: learned VLAN 10 02-00-00-00-00-03 behind 1234, confidence 255, 7891 s\n"
    );
    reference::age(300, &mut table);
    assert!(bytes(&folder.join("table")) == table);

    let good_check = good(&run_in(&folder, &["check", "--table", "table"]));
    assert!(good_check.starts_with("no slot is spoilt\nlowest free slot: 0\n"));
    // state 3; and a learned record with a group address
    table[2 * RECORD] = 0xC0;
    table.extend(record(true, vlan(1), 0x0300_0000_0001, 0, 9));
    fs::write(folder.join("table"), &table).expect("a table");
    let output = run_in(&folder, &["check", "--table", "table"]);
    assert_eq!(output.status.code(), Some(1));
    assert_eq!(
        text(&output.stdout),
        "lowest spoilt slot: 2\n\
         lowest free slot: 0\n\
         table: 5 slots, 1 learned, 1 configured, 2 spoilt, 1 free\n  \
         slot 1: configured FGL 70000 02-00-00-00-00-02 behind 1234, confidence 7, 0 s\n  \
         slot 2: spoilt C0 00 00 00 00 00 00 00 00 00 00 00 00 00 00\n  \
         slot 3: learned VLAN 10 02-00-00-00-00-03 behind 1234, confidence 255, 7891 s\n  \
         slot 4: spoilt 40 00 00 20 60 00 00 00 00 22 46 80 00 09 00\n"
    );
    assert!(bytes(&folder.join("table")) == table);
}

#[test]
fn a_dash_means_standard_input_and_output() {
    let folder = folder("dash");
    let frames = frames("hall");
    fs::write(folder.join("in"), captures::capture(USUAL, &frames)).expect("a capture");
    let files = [
        "receive", "-", "--table", "table", "--slots", "16", "--out", "-",
    ];
    let words = [&files[..], &SETTINGS].concat();
    let output = shell_in(&folder, "cat in | \"$@\"", &words);
    assert!(output.status.success());
    // the capture has standard output to itself
    expect_text(&text(&output.stderr), "hall.expected");
    let mut table = vec![0; 16 * RECORD];
    let delivered = received(&frames, &mut table);
    assert!(output.stdout == capture_of(USUAL, &delivered));
    assert!(bytes(&folder.join("table")) == table);
    assert_eq!(names(&folder), ["in", "table", "table.aged"]);
    // what cannot be read is named, and what cannot be written
    let output = shell_in(&folder, "head -c 30 in | \"$@\"", &words);
    bad_line(
        &output,
        1,
        "standard input, record 1, at byte 24: the capture ends inside",
    );
    let output = shell_in(&folder, "cat in | \"$@\" >/dev/full", &words);
    bad_line(
        &output,
        1,
        "standard output cannot be written: No space left",
    );
    let output = run_in(&folder, &["check", "--table", "-"]);
    bad(
        &output,
        2,
        "--table is a file, not standard input or output",
    );
    // a pipeline of both conversions
    let small = data("to_compact.pcap");
    let compact = ["compact", small.to_str().expect("UTF-8"), "--out", "small"];
    good(&run_in(&folder, &[&compact[..], &SETTINGS].concat()));
    let expand = [
        "expand",
        "small",
        "--out",
        "large",
        "--source",
        "02-00-00-00-00-B2",
    ];
    good(&run_in(&folder, &[&expand[..], &SETTINGS].concat()));
    let line = format!(
        "\"$1\" compact {} --out - --quiet {settings} | \"$1\" expand - --out - --quiet --source 0200000000B2 {settings}",
        small.display(),
        settings = SETTINGS.join(" ")
    );
    let output = shell_in(&folder, &line, &[]);
    assert!(output.status.success(), "{}", text(&output.stderr));
    assert!(output.stdout == bytes(&folder.join("large")));
}

#[test]
fn the_line_of_a_frame_from_a_pipe_comes_before_the_next_frame() {
    let folder = folder("prompt");
    make_pipe(&folder.join("in"));
    let mut driver = start_in(&folder, &receive_words("in"));
    let mut pipe = open_pipe(&folder.join("in"));
    let whole = captures::capture(USUAL, &frames("hall"));
    let ends: Vec<usize> = (0..=2)
        .map(|count| captures::capture(USUAL, &frames("hall")[..count]).len())
        .collect();
    let mut printed = BufReader::new(driver.stdout.take().expect("the lines"));
    for (number, part) in [(1, &whole[..ends[1]]), (2, &whole[ends[1]..ends[2]])] {
        pipe.write_all(part).expect("a frame");
        let mut line = String::new();
        printed.read_line(&mut line).expect("a line");
        assert!(line.starts_with(&format!("frame {number}: ")), "{line}");
        // a signal that asks `live` for a save breaks nothing off here
        thread::sleep(Duration::from_millis(50));
        signal(&driver, "USR1");
    }
    drop(pipe);
    let mut rest = String::new();
    printed.read_to_string(&mut rest).expect("the totals");
    assert!(rest.starts_with("2 frames: 2 delivered "), "{rest}");
    assert!(driver.wait().expect("the driver").success());
}

/// The same as `bad`, where lines stand before the message.
fn bad_line(output: &Output, status: i32, words: &str) {
    let said = text(&output.stderr);
    assert_eq!(output.status.code(), Some(status), "{said}");
    let told = |line: &str| line.starts_with("shinglebar-port: ") && line.contains(words);
    assert!(said.lines().any(told), "`{words}` is not in: {said}");
}

#[test]
fn help_and_version_are_told_in_every_usual_way() {
    let folder = folder("version");
    let all = good(&run_in(&folder, &["--help"]));
    for words in [&["-h"][..], &["help"], &["help", "--help"]] {
        assert_eq!(good(&run_in(&folder, words)), all, "{words:?}");
    }
    let live = good(&run_in(&folder, &["live", "--help"]));
    assert!(live.starts_with("shinglebar-port live "));
    for words in [&["help", "live"][..], &["live", "-h"]] {
        assert_eq!(good(&run_in(&folder, words)), live, "{words:?}");
    }
    bad(
        &run_in(&folder, &["help", "remove"]),
        2,
        "`remove` is no command",
    );
    let header = text(&bytes(&package().join("../include/shinglebar.h")));
    let version = header
        .lines()
        .find_map(|line| line.strip_prefix("#define SHINGLEBAR_VERSION \""))
        .and_then(|line| line.strip_suffix('"'))
        .expect("a version");
    let told = good(&run_in(&folder, &["--version"]));
    assert_eq!(told, format!("shinglebar-port {version}\n"));
}

#[test]
fn configured_records_are_made_and_removed() {
    let folder = folder("set");
    let mut table = [
        record(true, vlan(10), 0x0200_0000_0001, 32, 300),
        [0; RECORD],
        [0; RECORD],
    ]
    .concat();
    fs::write(folder.join("table"), &table).expect("a table");
    let set = |words: &[&str]| {
        let words = [
            &["set", "--table", "table", "--nickname", "1234"][..],
            words,
        ]
        .concat();
        run_in(&folder, &words)
    };
    let expect = |table: &[u8]| assert!(bytes(&folder.join("table")) == table);
    // a fine-grained label takes the lowest free slot, with the highest confidence
    let fine = Label::fine(70_000).expect("a label");
    assert_eq!(
        good(&set(&["--fgl", "70000", "--mac", "020000000002"])),
        "slot 1: free -> configured FGL 70000 02-00-00-00-00-02 behind 1234, confidence 255, 0 s\n"
    );
    table[RECORD..2 * RECORD].copy_from_slice(&record(false, fine, 0x0200_0000_0002, 255, 0));
    expect(&table);
    // the pair's own slot is taken, also a learned one
    assert_eq!(
        good(&set(&["--vlan", "10", "--mac", "020000000001", "--confidence", "7"])),
        "slot 0: learned -> configured VLAN 10 02-00-00-00-00-01 behind 1234, confidence 32 -> 7, 300 -> 0 s\n"
    );
    table[..RECORD].copy_from_slice(&record(false, vlan(10), 0x0200_0000_0001, 7, 0));
    expect(&table);
    let dry = ["--vlan", "11", "--mac", "020000000001", "--dry-run"];
    assert!(good(&set(&dry)).starts_with("slot 2: free -> configured VLAN 11"));
    expect(&table);
    good(&set(&["--vlan", "4094", "--mac", "020000000001"]));
    table[2 * RECORD..].copy_from_slice(&record(false, vlan(4094), 0x0200_0000_0001, 255, 0));
    expect(&table);
    bad(
        &set(&["--vlan", "11", "--mac", "020000000001"]),
        1,
        "table is full",
    );
    // what a good record is, the library says
    for words in [
        ["--vlan", "0", "--mac", "020000000001"],
        ["--vlan", "4095", "--mac", "020000000001"],
        ["--vlan", "1", "--mac", "030000000001"],
    ] {
        bad(&set(&words), 2, "no good record");
    }
    let words = [
        "set",
        "--table",
        "table",
        "--vlan",
        "1",
        "--mac",
        "020000000001",
        "--nickname",
    ];
    for nickname in ["0", "FFC0", "FFFF"] {
        bad(
            &run_in(&folder, &[&words[..], &[nickname]].concat()),
            2,
            "no good record",
        );
    }
    expect(&table);
    // a learned record stays where a frame comes: so does a configured one
    fs::write(
        folder.join("in"),
        captures::capture(USUAL, &[frame_from(0x0200_0000_0001, 10, 0x1235)]),
    )
    .expect("a capture");
    let receive = [&["receive", "in", "--table", "table"][..], &SETTINGS].concat();
    assert!(good(&run_in(&folder, &receive))
        .contains("kept | table unchanged (slot 0: configured VLAN 10"));

    let unset = |words: &[&str]| {
        run_in(
            &folder,
            &[&["unset", "--table", "table"][..], words].concat(),
        )
    };
    let pair = ["--vlan", "10", "--mac", "020000000001"];
    assert_eq!(
        good(&unset(&pair)),
        "slot 0: VLAN 10 02-00-00-00-00-01 behind 1234 -> free\n"
    );
    table[..RECORD].fill(0);
    expect(&table);
    bad(
        &unset(&pair),
        1,
        "table has no record of that label and address",
    );
    table[..RECORD].copy_from_slice(&record(true, vlan(10), 0x0200_0000_0001, 7, 9));
    fs::write(folder.join("table"), &table).expect("a table");
    bad(&unset(&pair), 1, "table: slot 0 is learned, not configured");
    expect(&table);
    // a table is made where there is none
    let words = [
        "set",
        "--table",
        "new",
        "--slots",
        "2",
        "--vlan",
        "5",
        "--mac",
        "020000000001",
        "--nickname",
        "1234",
        "--json",
    ];
    json_values(good(&run_in(&folder, &words)).trim_end());
    let new = [
        record(false, vlan(5), 0x0200_0000_0001, 255, 0),
        [0; RECORD],
    ]
    .concat();
    assert!(bytes(&folder.join("new")) == new);
}

#[test]
fn bad_command_lines_get_a_message_and_status_2() {
    let folder = folder("usage");
    let lookup = ["lookup", "--table", "t", "--mac", "020000000001"];
    let receive = [&["receive", "in", "--table", "t"][..], &SETTINGS].concat();
    let expand = [&["expand", "in", "--out", "o"][..], &SETTINGS].concat();
    let ingress = [
        &["ingress", "in", "--out", "o", "--source", "020000000001"][..],
        &["--to", "020000000002", "--egress", "0002"],
        &SETTINGS,
    ]
    .concat();
    let and = |words: &[&'static str], more: &[&'static str]| [words, more].concat();
    let cases: Vec<(Vec<&str>, &str)> = vec![
        (vec!["remove"], "`remove` is no command"),
        (and(&receive, &["more"]), "`more` is one word too many"),
        (
            and(&receive, &["--by", "1"]),
            "`--by` is no option of this command",
        ),
        (
            and(&receive, &["--compact", "on"]),
            "--compact is given twice",
        ),
        (and(&receive, &["--out"]), "--out needs a value: FILE"),
        (and(&receive, &["--quiet=yes"]), "--quiet takes no value"),
        (
            and(&receive, &["--slots", "0"]),
            "--slots takes a number from 1 to 4096, not `0`",
        ),
        (and(&receive, &["--slots=4097"]), "not `4097`"),
        (
            and(&receive, &["--confidence", "256"]),
            "--confidence takes a number from 0 to 255",
        ),
        (and(&receive, &["--confidence", "-1"]), "not `-1`"),
        (
            and(&receive, &["--confidence", "18446744073709551621"]),
            "--confidence takes a number",
        ),
        (
            and(&receive, &["--seconds", "9"]),
            "settings outside their ranges",
        ),
        (
            and(&receive, &["--seconds", "1s"]),
            "--seconds takes a number",
        ),
        (and(&receive, &["--out", "t"]), "are different files"),
        (
            vec!["receive", "in", "--table", "t"],
            "--port ADDRESS is needed",
        ),
        (
            SETTINGS
                .iter()
                .fold(vec!["receive", "--table", "t"], |words, word| {
                    and(&words, &[word])
                }),
            "no capture is named",
        ),
        (
            vec!["receive", "--port", "02-00-00-00-00"],
            "--port takes an address",
        ),
        (
            vec!["receive", "--port", "02-00-00-00-00:01"],
            "--port takes an address",
        ),
        (
            vec!["receive", "--port", "02000000000g"],
            "--port takes an address",
        ),
        (
            vec!["receive", "--nickname", "10000"],
            "--nickname takes up to four hexadecimal digits",
        ),
        (
            vec!["receive", "--compact", "yes"],
            "--compact takes on or off, not `yes`",
        ),
        (vec!["receive", "--table", ""], "--table is empty"),
        (lookup.to_vec(), "one of --vlan and --fgl is needed"),
        (
            and(&lookup, &["--vlan", "1", "--fgl", "1"]),
            "one of --vlan and --fgl is needed",
        ),
        (
            vec!["age", "--table", "t", "--by", "65536"],
            "--by takes a number from 0 to 65535",
        ),
        (expand.clone(), "--source ADDRESS is needed"),
        (
            and(&expand, &["--source", "030000000001"]),
            "--source is a group address",
        ),
        (
            and(&expand, &["--source", "020000000001", "--tag", "4095"]),
            "--tag takes a number from 1 to 4094",
        ),
        (ingress.clone(), "--map FILE is needed"),
        (and(&ingress, &["--map", "o"]), "--map is a file of its own"),
        (and(&receive, &["--map", "t"]), "--map is a file of its own"),
        (
            and(&ingress, &["--map", "m", "--hops", "64"]),
            "--hops takes a number from 1 to 63",
        ),
        (
            and(&["ingress", "in", "--out", "o", "--map", "m"], &SETTINGS),
            "--source ADDRESS is needed",
        ),
        (
            and(&["live", "--table", "t"], &SETTINGS),
            "--interface NAME is needed",
        ),
    ];
    for (words, said) in cases {
        bad(&run_in(&folder, &words), 2, said);
    }
    // settings that the library refuses: a group address, two equal ones, a nickname out of range
    for (place, value) in [
        (1, "03-00-00-00-00-A1"),
        (1, "02-00-00-00-00-AA"),
        (5, "FFC0"),
        (5, "0"),
    ] {
        let mut settings = SETTINGS;
        settings[place] = value;
        let words = [&["receive", "in", "--table", "t"][..], &settings].concat();
        bad(&run_in(&folder, &words), 2, "settings outside their ranges");
    }
    let output = run_in(&folder, &[]);
    assert_eq!(output.status.code(), Some(2));
    assert!(text(&output.stderr).contains("no command is given"));
    assert_eq!(names(&folder), [""; 0]);
}

#[test]
fn each_command_has_help_on_each_of_its_options() {
    let folder = folder("help");
    let settings = [
        "--port",
        "--inner",
        "--nickname",
        "--compact",
        "--confidence",
        "--seconds",
    ];
    let commands: [(&str, &[&str], bool); 17] = [
        ("hello", &["--hex", "--json"], false),
        ("hello-write", &["--text", "--json"], false),
        ("report", &["--table", "--json"], false),
        (
            "receive",
            &[
                "--table",
                "--slots",
                "--out",
                "--map",
                "--multihomed",
                "--smart",
                "--no-ageing",
                "--dry-run",
                "--mac",
                "--json",
                "--portion",
                "--quiet",
            ],
            true,
        ),
        ("compact", &["--out", "--json", "--quiet"], true),
        (
            "expand",
            &["--out", "--source", "--tag", "--json", "--quiet"],
            true,
        ),
        (
            "ingress",
            &[
                "--out", "--map", "--source", "--to", "--egress", "--hops", "--json", "--quiet",
            ],
            true,
        ),
        (
            "lookup",
            &["--table", "--vlan", "--fgl", "--mac", "--json"],
            false,
        ),
        ("age", &["--table", "--by", "--dry-run", "--json"], false),
        ("check", &["--table", "--json"], false),
        (
            "set",
            &[
                "--table",
                "--slots",
                "--vlan",
                "--fgl",
                "--mac",
                "--nickname",
                "--confidence",
                "--dry-run",
                "--json",
            ],
            false,
        ),
        (
            "unset",
            &["--table", "--vlan", "--fgl", "--mac", "--dry-run", "--json"],
            false,
        ),
        ("widen", &["--table", "--dry-run", "--json"], false),
        (
            "why",
            &[
                "--table",
                "--slots",
                "--map",
                "--multihomed",
                "--smart",
                "--slot",
                "--mac",
                "--vlan",
                "--fgl",
                "--hex",
                "--ingress",
                "--no-ageing",
                "--json",
            ],
            true,
        ),
        (
            "write",
            &[
                "--out",
                "--source",
                "--nickname",
                "--vlan",
                "--fgl",
                "--mac",
                "--payload",
                "--ingress",
                "--json",
            ],
            false,
        ),
        (
            "live",
            &[
                "--interface",
                "--frames",
                "--for",
                "--save",
                "--dry-run",
                "--table",
                "--slots",
                "--out",
                "--map",
                "--multihomed",
                "--smart",
                "--mac",
                "--json",
                "--watch",
                "--portion",
                "--quiet",
            ],
            true,
        ),
        (
            "send",
            &["--interface", "--json", "--watch", "--quiet"],
            true,
        ),
    ];
    let all = good(&run_in(&folder, &["--help"]));
    for (command, options, with_settings) in commands {
        assert!(
            all.contains(&format!("shinglebar-port {command} ")),
            "{command}"
        );
        let help = good(&run_in(&folder, &[command, "--help"]));
        let more: &[&str] = if with_settings { &settings } else { &[] };
        let mut wanted: Vec<&str> = [options, more].concat();
        let mut found: Vec<&str> = help
            .lines()
            .filter_map(|line| line.strip_prefix("  --"))
            .map(|line| line.split(' ').next().expect("a name"))
            .collect();
        wanted.sort();
        found.sort();
        let wanted: Vec<&str> = wanted.iter().map(|name| &name[2..]).collect();
        assert_eq!(found, wanted, "{command}");
    }
}

#[test]
fn a_missing_interface_is_said() {
    let folder = folder("interface");
    fs::write(folder.join("in"), USUAL.header()).expect("a capture");
    let live = [
        "live",
        "--interface",
        "none0",
        "--table",
        "table",
        "--slots",
        "1",
    ];
    let send = ["send", "in", "--interface", "none0"];
    for words in [&live[..], &send] {
        let output = run_in(&folder, &[words, &SETTINGS].concat());
        bad(&output, 1, "interface none0: No such device");
        assert_eq!(names(&folder), ["in"]);
    }
}

#[test]
fn a_watch_that_is_missing_or_is_none_is_said() {
    let folder = folder("watch");
    fs::write(folder.join("in"), USUAL.header()).expect("a capture");
    for (watch, said) in [
        ("none", "none: No such file or directory"),
        ("empty", "empty is no watch"),
        ("short", "short is no watch"),
        ("large", "large is no watch"),
        ("long", "long is no watch"),
    ] {
        let text = match watch {
            "empty" => "",
            "short" => "11 3976\n",
            "large" => "4294967296 0000003976\n",
            "long" => "0000000011 0000003976\n\n",
            _ => "",
        };
        if watch != "none" {
            fs::write(folder.join(watch), text).expect("a watch");
        }
        let words = ["send", "in", "--interface", "none0", "--watch", watch];
        bad(&run_in(&folder, &[&words[..], &SETTINGS].concat()), 1, said);
    }
    fs::write(folder.join("good"), "0000000011 0000003976\n").expect("a watch");
    let words = ["send", "in", "--interface", "none0", "--watch", "good"];
    let output = run_in(&folder, &[&words[..], &SETTINGS].concat());
    bad(&output, 1, "interface none0: No such device");
}

#[test]
fn a_long_capture_has_a_progress_line_on_a_terminal_only() {
    let folder = folder("progress");
    let frame = frames("lab_to_left").swap_remove(0);
    let long = vec![frame; 25_000];
    fs::write(folder.join("in"), captures::capture(USUAL, &long)).expect("a capture");
    let words = [&receive_words("in")[..], &["--quiet"]].concat();
    // nothing but the totals without a terminal
    assert!(good(&run_in(&folder, &words)).starts_with("25000 frames: "));
    let line = format!("{} {} >printed", program().display(), words.join(" "));
    let output = Command::new("script")
        .current_dir(&folder)
        .args(["-qec", &line, "/dev/null"])
        .stdin(Stdio::null())
        .output()
        .expect("script");
    assert!(output.status.success());
    let shown = text(&output.stdout);
    for part in ["\r10000 frames, 40 %", "\r20000 frames, 80 %", "\r\x1b[K"] {
        assert!(shown.contains(part), "{part:?} is not in {shown:?}");
    }
    assert!(text(&bytes(&folder.join("printed"))).starts_with("25000 frames: "));
}

/// The strings of the header are the words of its comments, in the order of the numbers; and so is what the driver prints of each
/// refusal that a user can meet. Refusal 1 has a message of its own, which names options; the driver's areas leave no room for 16.
#[test]
fn the_words_for_refusals_are_those_of_the_header() {
    let header = text(&bytes(&package().join("../include/shinglebar.h")));
    let lines: Vec<&str> = header.lines().map(str::trim).collect();
    let numbered =
        |pair: &&[&str]| pair[1].starts_with("SHINGLEBAR_REFUSAL_") && pair[1].contains(" = ");
    let comment = |pair: &[&str]| {
        let words = pair[0].strip_prefix("/* ")?.strip_suffix(" */")?;
        Some(words.to_owned())
    };
    let words: Option<Vec<String>> = lines.windows(2).filter(numbered).map(comment).collect();
    let words = words.expect("the words");
    assert_eq!(words.len(), 24);
    let strings: Vec<&str> = lines
        .iter()
        .skip_while(|line| **line != "\"no refusal\",")
        .skip(1)
        .take_while(|line| **line != "};")
        .filter_map(|line| {
            line.trim_end_matches(',')
                .strip_prefix('"')?
                .strip_suffix('"')
        })
        .collect();
    // 19 and 20, which are the numbers of none, have no string
    assert_eq!(strings, words);

    let folder = folder("words");
    for name in ["refusals", "to_compact", "lab_to_left"] {
        fs::copy(data(&format!("{name}.pcap")), folder.join(name)).expect("a capture");
    }
    let convert = |command, capture| [&[command, capture, "--out", "out"][..], &SETTINGS].concat();
    let source = ["--source", "02-00-00-00-00-B2"];
    let mut printed = good(&run_in(&folder, &receive_words("refusals")));
    printed += &good(&run_in(&folder, &convert("compact", "to_compact")));
    printed += &good(&run_in(
        &folder,
        &[&convert("expand", "lab_to_left")[..], &source].concat(),
    ));
    fs::write(folder.join("table"), [0; RECORD + 1]).expect("a table");
    let output = run_in(&folder, &["check", "--table", "table"]);
    assert_eq!(output.status.code(), Some(1));
    printed += &text(&output.stderr);

    let (mut answered, mut counted) = (BTreeSet::new(), BTreeSet::new());
    for line in printed.lines() {
        let Some((before, refused)) = line.split_once("refused ") else {
            continue;
        };
        // the totals have the count of all, and a line for each with its count
        let Some((number, said)) = refused.split_once(": ") else {
            continue;
        };
        let number: usize = number.parse().expect("a number");
        let words = strings[number - 1];
        if before == "  " {
            let (count, said) = said.split_once(' ').expect("a count");
            assert!(count.parse::<usize>().is_ok(), "{line}");
            assert_eq!(said, format!("({words})"), "{line}");
            counted.insert(number);
        } else {
            let behind = said.strip_prefix(words);
            let behind = behind.unwrap_or_else(|| panic!("`{words}` is not in: {line}"));
            let more = number == 15 && behind.starts_with(": byte ");
            assert!(
                behind.is_empty() || behind.starts_with(" | ") || more,
                "{line}"
            );
            answered.insert(number);
        }
    }
    assert!(counted.into_iter().eq(3..=15));
    assert!(answered.into_iter().eq((2..=15).chain([17, 18])));
}

/// Document 02, 2026-05: a flush in portions between frames ends with the table and the records cleared of the whole flush, where the
/// frames in between change nothing.
#[test]
fn a_flush_in_portions_ends_as_the_whole_flush() {
    let folder = folder("portions");
    let mut frames: Vec<Vec<u8>> = (0..11)
        .map(|number| frame_from(0x0200_0000_0010 + number, 10, 0x1234))
        .collect();
    frames.push(flush_frame(&[0, 0, 6, 0]));
    // Frames that are refused: time for portions.
    frames.extend(vec![vec![0xFF; 60]; 3]);
    fs::write(folder.join("in"), captures::capture(USUAL, &frames)).expect("a capture");
    let words = |table: &'static str, more: &[&'static str]| {
        let files = [
            "receive",
            "in",
            "--table",
            table,
            "--slots",
            "16",
            "--no-ageing",
        ];
        [&files[..], &SETTINGS, more].concat()
    };
    let whole = good(&run_in(&folder, &words("whole", &[])));
    let table = bytes(&folder.join("whole"));
    for k in ["1", "3", "5", "16", "4096"] {
        let _ = fs::remove_file(folder.join("table"));
        let printed = good(&run_in(&folder, &words("table", &["--portion", k])));
        assert_eq!(bytes(&folder.join("table")), table, "portions of {k}");
        let total = |printed: &str| {
            let line = printed.lines().find(|line| line.contains(" frames: "));
            line.expect("totals").to_string()
        };
        assert_eq!(total(&printed), total(&whole), "portions of {k}");
        assert!(
            printed.contains(&format!("| flush in portions of {k}")),
            "{printed}"
        );
        let calls = 16usize.div_ceil(k.parse().expect("a number"));
        let portions = printed.lines().filter(|line| line.contains("portion: "));
        let flushes = printed.matches("flush in portions of").count();
        assert_eq!(
            portions.count(),
            calls * flushes,
            "portions of {k}: {printed}"
        );
        assert_eq!(printed.matches("last portion: ").count(), flushes);
    }
    bad(
        &run_in(&folder, &words("table", &["--portion", "0"])),
        2,
        "--portion takes a number from 1 to 4096",
    );
}

/// A flush that `write` makes: its payload, and the frame that `receive` obeys.
#[test]
fn write_makes_a_flush_that_receive_obeys() {
    let folder = folder("write");
    let lists = [
        "write",
        "--nickname",
        "1234",
        "--vlan",
        "10-12",
        "--mac",
        "02-00-00-00-00-01",
    ];
    let payload = run_in(&folder, &[&lists[..], &["--payload", "payload"]].concat());
    assert!(payload.status.success(), "{}", text(&payload.stderr));
    assert_eq!(
        text(&payload.stdout),
        "flush written, 24 bytes of payload\n"
    );
    let mac = [2, 0, 0, 0, 0, 1];
    let wanted = [
        &[1, 0x12, 0x34, 0, 1, 4, 0, 10, 0, 12, 8, 12][..],
        &mac,
        &mac,
    ]
    .concat();
    assert_eq!(bytes(&folder.join("payload")), wanted);

    let learned = |mac: u64| {
        let entry = Entry {
            label: Label::Vlan(11),
            mac,
            nickname: 0x1234,
            confidence: 32,
            seconds: 1000,
            multihomed: false,
        };
        write(true, &entry)
    };
    let (asked, other) = (learned(0x0200_0000_0001), learned(0x0200_0000_0002));
    fs::write(folder.join("table"), [asked, other].concat()).expect("the table");
    let frame = [
        "--out",
        "flush.pcap",
        "--source",
        "02-00-00-00-00-B2",
        "--ingress",
        "1235",
    ];
    let made = run_in(&folder, &[&lists[..], &frame].concat());
    assert!(made.status.success(), "{}", text(&made.stderr));
    let receive = ["receive", "flush.pcap", "--table", "table", "--no-ageing"];
    let obeyed = run_in(&folder, &[&receive[..], &SETTINGS].concat());
    assert!(obeyed.status.success(), "{}", text(&obeyed.stderr));
    assert_eq!(bytes(&folder.join("table")), [[0; RECORD], other].concat());

    for wrong in [
        &["--vlan", "12-10"][..],
        &["--mac", "020000000001"],
        &["--vlan", "x"],
    ] {
        let refused = run_in(&folder, &[&["write", "--payload", "none"], wrong].concat());
        assert_eq!(refused.status.code(), Some(2), "{wrong:?}");
        assert!(!folder.join("none").exists());
    }
}

// The width of a table file (document 02, 2026-12)

/// The line in front of records whose length fits 14 bytes too.
const LINE: &[u8] = b"shinglebar table 15\n";

/// The sum of a table in its file of seconds.
fn sum(table: &[u8]) -> u64 {
    table.iter().fold(0xCBF2_9CE4_8422_2325, |sum, byte| {
        (sum ^ u64::from(*byte)).wrapping_mul(0x100_0000_01B3)
    })
}

/// An older table of so many slots, the first learned, the second configured, the last spoilt.
fn older(slots: usize) -> Vec<u8> {
    let mut old = vec![0; slots * OLD_RECORD];
    let learned = record(true, vlan(10), 0x0200_0000_0001, 20, 17);
    let configured = record(false, vlan(11), 0x0200_0000_0001, 1, 0);
    old[..OLD_RECORD].copy_from_slice(&learned[..OLD_RECORD]);
    old[OLD_RECORD..2 * OLD_RECORD].copy_from_slice(&configured[..OLD_RECORD]);
    old[(slots - 1) * OLD_RECORD..].fill(0xC3);
    old
}

fn wider(old: &[u8]) -> Vec<u8> {
    let mut table = vec![0; old.len() / OLD_RECORD * RECORD];
    assert_eq!(reference::widen(old, &mut table) & 0xFF, 64);
    table
}

#[test]
fn an_older_table_file_is_widened_and_keeps_the_second_it_was_aged_to() {
    let folder = folder("widen");
    let (old, file) = (older(16), folder.join("table"));
    fs::write(&file, &old).expect("a table");
    let second = format!("1763280000 {:016X}\n", sum(&old));
    fs::write(folder.join("table.aged"), &second).expect("a second");
    fs::set_permissions(&file, fs::Permissions::from_mode(0o640)).expect("a mode");
    for words in [
        &["check", "--table", "table"][..],
        &["age", "--table", "table", "--by", "1"],
    ] {
        let said = "table has records of 14 bytes; `widen` makes them 15";
        bad(&run_in(&folder, words), 1, said);
    }
    let lines = "16 records of 14 bytes -> 15 bytes\n\
                 table: 16 slots, 1 learned, 1 configured, 1 spoilt, 13 free\n  \
                 slot 0: learned VLAN 10 02-00-00-00-00-01 behind 1234, confidence 20, 17 s\n  \
                 slot 1: configured VLAN 11 02-00-00-00-00-01 behind 1234, confidence 1, 0 s\n  \
                 slot 15: spoilt C3 C3 C3 C3 C3 C3 C3 C3 C3 C3 C3 C3 C3 C3 00\n";
    let widen = ["widen", "--table", "table"];
    let tried = good(&run_in(&folder, &[&widen[..], &["--dry-run"]].concat()));
    assert_eq!((tried.as_str(), bytes(&file)), (lines, old.clone()));
    assert_eq!(good(&run_in(&folder, &widen)), lines);
    let table = wider(&old);
    assert!(bytes(&file) == table);
    let mode = fs::metadata(&file).expect("the table").permissions().mode();
    assert_eq!(mode & 0o777, 0o640);
    let seconds = format!("{second}1763280000 {:016X}\n", sum(&table));
    assert_eq!(text(&bytes(&folder.join("table.aged"))), seconds);
    assert_eq!(names(&folder), ["table", "table.aged"]);

    bad(
        &run_in(&folder, &widen),
        1,
        "table has records of 15 bytes already",
    );
    assert!(bytes(&file) == table);
    // the table goes on from that second: 17 seconds later the learned record is free
    let frames = [(17, frame_from(0x0200_0000_0002, 10, 0x1234))];
    fs::write(folder.join("in"), capture_at(&frames)).expect("a capture");
    let receive = [&["receive", "in", "--table", "table"][..], &SETTINGS].concat();
    let printed = good(&run_in(&folder, &receive));
    assert!(
        printed.contains("17 seconds passed | 1 became free"),
        "{printed}"
    );
}

#[test]
fn a_length_that_fits_both_widths_is_never_guessed() {
    let folder = folder("both_widths");
    let file = folder.join("table");
    // 15 older records, or 14 of now; which, only the line says
    let old = older(15);
    fs::write(&file, &old).expect("a table");
    let check = ["check", "--table", "table"];
    for words in [
        &check[..],
        &["age", "--table", "table", "--by", "1"],
        &[
            "set",
            "--table",
            "table",
            "--vlan",
            "1",
            "--mac",
            "020000000001",
            "--nickname",
            "1",
        ],
    ] {
        let said = "table has 210 bytes and does not say of which width: 15 records of 14 bytes, which `widen` makes 15, \
                    or 14 of 15, which a first line `shinglebar table 15` says";
        bad(&run_in(&folder, words), 1, said);
        assert!(bytes(&file) == old);
    }
    assert!(good(&run_in(&folder, &["widen", "--table", "table"]))
        .starts_with("15 records of 14 bytes -> 15 bytes\n"));
    assert!(bytes(&file) == wider(&old));

    // the same bytes behind the line are 14 records
    fs::write(&file, [LINE, &old].concat()).expect("a table");
    let output = run_in(&folder, &check);
    assert!(text(&output.stdout).contains("\ntable: 14 slots, "));
    bad(
        &run_in(&folder, &["widen", "--table", "table"]),
        1,
        "table has records of 15 bytes already",
    );

    // a table that is widened to such a length, or made with it, says its width
    let old = older(14);
    fs::write(&file, &old).expect("a table");
    good(&run_in(&folder, &["widen", "--table", "table"]));
    assert!(bytes(&file) == [LINE, &wider(&old)].concat());
    let set = [
        "set",
        "--table",
        "new",
        "--slots",
        "28",
        "--vlan",
        "5",
        "--mac",
        "020000000001",
    ];
    let set = [&set[..], &["--nickname", "1234"]].concat();
    good(&run_in(&folder, &set));
    let made = bytes(&folder.join("new"));
    assert_eq!((&made[..LINE.len()], made.len()), (LINE, LINE.len() + 420));
    good(&run_in(&folder, &["age", "--table", "new", "--by", "1"]));
    assert!(bytes(&folder.join("new")) == made);
    // no older table is so long: the length says it
    fs::write(&file, vec![0; 61_320]).expect("a table");
    good(&run_in(&folder, &check));
    fs::write(&file, vec![0; 57_330]).expect("a table");
    bad(&run_in(&folder, &check), 1, "does not say of which width");
}

#[test]
fn what_is_no_older_table_is_not_widened() {
    let folder = folder("not_widened");
    let file = folder.join("table");
    let widen = ["widen", "--table", "table"];
    bad(&run_in(&folder, &widen), 1, "table cannot be opened");
    for length in [0, OLD_RECORD - 1, 57_346, 57_358] {
        fs::write(&file, vec![0; length]).expect("a table");
        let said = format!("table is no table of records of 14 bytes: it has {length} bytes");
        bad(&run_in(&folder, &widen), 1, &said);
        assert_eq!(bytes(&file).len(), length);
    }
    fs::write(&file, vec![0; 57_344]).expect("a table");
    good(&run_in(&folder, &widen));
    assert!(bytes(&file) == vec![0; TABLE]);
}

/// A native frame with two bytes of tag, or untagged.
fn native(mac: u64, tag: Option<u16>) -> Vec<u8> {
    maps::Native {
        destination: 0x0200_0000_000D,
        source: mac,
        tag: tag.map(|tag| (0x8100, tag)),
        content: vec![0x08, 0x00, 0x45, 0x00],
    }
    .bytes()
}

/// The options of `ingress` at the port 1234, for the port of `SETTINGS`.
const INGRESS: [&str; 18] = [
    "ingress",
    "in",
    "--out",
    "general",
    "--map",
    "map",
    "--port",
    "02-00-00-00-00-B2",
    "--inner",
    "02-00-00-00-00-BB",
    "--nickname",
    "1234",
    "--source",
    "02-00-00-00-00-B2",
    "--to",
    "02-00-00-00-00-A1",
    "--egress",
    "0102",
];

#[test]
fn native_frames_go_in_at_one_port_and_come_out_at_the_other_by_the_map() {
    let folder = folder("map");
    let map = maps::bytes(&[(10, 0xAB_CDEF), (11, 7)]);
    let lines = "10 0xABCDEF\n\n# the second hall\n 11\t7 # scanners\n";
    fs::write(folder.join("map"), lines).expect("a map");
    let frames = [
        native(0x0200_0000_0001, Some(0x600A)),
        native(0x0200_0000_0002, Some(0xF00B)),
        native(0x0200_0000_0001, None),
        native(0x0200_0000_0001, Some(12)),
        native(0x0200_0000_0001, Some(10))[..17].to_vec(),
        native(0x0300_0000_0001, Some(10)),
    ];
    fs::write(folder.join("in"), captures::capture(USUAL, &frames)).expect("a capture");
    let given = Encapsulation {
        outer_destination: PORT.port,
        outer_source: 0x0200_0000_00B2,
        m: 0,
        hop_count: 63,
        egress: 0x0102,
        ingress: 0x1234,
    };
    let near = reference::Settings {
        port: 0x0200_0000_00B2,
        inner: 0x0200_0000_00BB,
        nickname: 0x1234,
        ..PORT
    };
    let ingressed = |given: &Encapsulation| -> Vec<(usize, Vec<u8>)> {
        let mut general = Vec::new();
        for (place, frame) in frames.iter().enumerate() {
            let mut out = vec![0; 9_216];
            let word = reference::ingress(&near, &map, given, frame, &mut out);
            if word & 0xFF == 64 {
                out.truncate((word >> 8) as usize);
                general.push((place, out));
            }
        }
        general
    };
    let printed = good(&run_in(&folder, &INGRESS));
    let general = ingressed(&given);
    assert_eq!(general.len(), 2);
    assert!(bytes(&folder.join("general")) == capture_of(USUAL, &general));
    for (number, said) in [
        (1, "native, 20 bytes, VLAN 10, 02-00-00-00-00-01 to 02-00-00-00-00-0D, type 0800 | ingressed to 44 bytes of FGL 11259375"),
        (2, "native, 20 bytes, VLAN 11, 02-00-00-00-00-02 to 02-00-00-00-00-0D, type 0800 | ingressed to 44 bytes of FGL 7"),
        (3, "native, 16 bytes, 02-00-00-00-00-01 to 02-00-00-00-00-0D, type 0800 | left out, refused 10: "),
        (4, "| left out, refused 22: no pair found in the map"),
        (5, "| left out, refused 6: "),
        (6, "| left out, refused 11: "),
    ] {
        let line = printed.lines().nth(number - 1).expect("a line");
        assert!(line.starts_with(&format!("frame {number}: ")), "{line}");
        assert!(line.contains(said), "{line}");
    }
    let totals = "6 frames: 2 ingressed, 4 left out";
    assert_eq!(printed.lines().nth(6), Some(totals));
    let objects = good(&run_in(&folder, &[&INGRESS[..], &["--json"]].concat()));
    same_facts(&printed, &objects);

    // The far port, with the same map: the native frames, DEI 0.
    let receive = [&receive_words("general")[..], &["--map", "map"]].concat();
    let printed = good(&run_in(&folder, &receive));
    let native = |place: usize| {
        let mut frame = frames[place].clone();
        frame[14] &= 0xEF;
        (place, frame)
    };
    assert!(bytes(&folder.join("out")) == capture_of(USUAL, &[native(0), native(1)]));
    let said = "delivered 20 bytes of FGL 11259375, learned, tagged VLAN 10 | ";
    assert!(printed.contains(said), "{printed}");
    fs::remove_file(folder.join("table")).expect("the table");
    let objects = good(&run_in(&folder, &[&receive[..], &["--json"]].concat()));
    assert!(objects.contains("\"native_vlan\":11"), "{objects}");
    fs::remove_file(folder.join("table")).expect("the table");
    same_facts(&good(&run_in(&folder, &receive)), &objects);

    // With another map there is no pair for the first; an empty map is none.
    fs::write(folder.join("map"), "11 7\n").expect("a map");
    let printed = good(&run_in(&folder, &receive));
    assert!(
        printed.contains("refused 22: no pair found in the map | "),
        "{printed}"
    );
    assert!(bytes(&folder.join("out")) == capture_of(USUAL, &[native(1)]));
    fs::write(folder.join("map"), "# none\n").expect("a map");
    let printed = good(&run_in(&folder, &receive));
    let said = "delivered 16 bytes of FGL 7, refreshed | ";
    assert!(printed.contains(said), "{printed}");

    // To many, with M, and another hop count.
    fs::write(folder.join("map"), lines).expect("a map");
    let mut words = [&INGRESS[..], &["--hops", "5"]].concat();
    words[15] = "01-80-C2-00-00-40";
    good(&run_in(&folder, &words));
    let to_many = Encapsulation {
        outer_destination: 0x0180_C200_0040,
        m: 1,
        hop_count: 5,
        ..given
    };
    assert!(bytes(&folder.join("general")) == capture_of(USUAL, &ingressed(&to_many)));
}

#[test]
fn a_map_file_that_is_no_map_is_refused_by_its_line() {
    let folder = folder("bad_map");
    fs::write(folder.join("in"), USUAL.header()).expect("a capture");
    let receive = [&receive_words("in")[..], &["--map", "map"]].concat();
    bad(&run_in(&folder, &receive), 1, "map: No such file");
    let mut all: Vec<String> = (1..=4094).map(|vlan| format!("{vlan} {vlan}\n")).collect();
    all.push("1 5000\n".to_string());
    let all = all.concat();
    let long = format!("10{}7\n", " ".repeat(300));
    for (lines, said) in [
        ("10 7\n11\n", "map: line 2 is not `VLAN LABEL`"),
        ("10 7 1\n", "map: line 1 is not `VLAN LABEL`"),
        ("10, 7\n", "map: line 1 is not `VLAN LABEL`"),
        ("65546 7\n", "map: line 1 is not `VLAN LABEL`"),
        ("10 4294967303\n", "map: line 1 is not `VLAN LABEL`"),
        (long.as_str(), "map: line 1 is not `VLAN LABEL`"),
        ("\n0 7\n", "map: line 2: the VLAN is outside 1 to 4094"),
        ("0xFFF 7\n", "map: line 1: the VLAN is outside 1 to 4094"),
        ("10 0x1000000\n", "map: line 1: the label is over 16777215"),
        (
            "10 7\n\n10 8\n",
            "map: line 3: the VLAN is in line 1 already",
        ),
        (
            "10 7\n11 8\n12 7",
            "map: line 3: the label is in line 1 already",
        ),
        (
            all.as_str(),
            "map: line 4095: the VLAN is in line 1 already",
        ),
    ] {
        fs::write(folder.join("map"), lines).expect("a map");
        bad(&run_in(&folder, &receive), 1, said);
        bad(&run_in(&folder, &INGRESS), 1, said);
        assert_eq!(names(&folder), ["in", "map"]);
    }
    // A pair for each VLAN.
    let (good_map, _) = all.split_at(all.len() - "1 5000\n".len());
    fs::write(folder.join("map"), good_map).expect("a map");
    good(&run_in(&folder, &INGRESS));
    good(&run_in(&folder, &receive));
}

/// Document 02, 2026-13: the request's Smart-Hello in words and as objects.
#[test]
fn hello_tells_what_a_smart_hello_says() {
    let folder = folder("hello");
    let digits = "FB0900000116 04001E0000 F2140000000000 060540 80001234 0806000112341235 FB0F000001170A4000000A020000000001";
    let digits: String = digits.split_whitespace().collect();
    let words = ["hello", "--hex", &digits];
    let printed = good(&run_in(&folder, &words));
    assert_eq!(
        printed,
        "holding time 30 s, flags 0000\n\
         nickname 1234, priority 64, tree root priority 32768\n\
         trees from 1: 1234 1235\n\
         VLAN 10, multihomed: 02-00-00-00-00-01\n"
    );
    same_facts(
        &printed,
        &good(&run_in(&folder, &[&words[..], &["--json"]].concat())),
    );
    for (digits, refused) in [("FB", "refused 25: "), ("", "refused 26: ")] {
        let output = run_in(&folder, &["hello", "--hex", digits]);
        assert!(text(&output.stderr).contains(refused));
        assert_eq!(output.status.code(), Some(1));
    }
}

fn upper_hex(bytes: &[u8]) -> String {
    bytes.iter().map(|byte| format!("{byte:02X}")).collect()
}

/// Document 02, 2026-13: what `hello` prints, `hello-write` makes a payload of: the one that it was, where the writer made that.
#[test]
fn hello_write_makes_the_payload_of_what_hello_prints() {
    let folder = folder("hello_write");
    let mut random = run::random("hello_write_makes_the_payload_of_what_hello_prints");
    let mut otherwise = 0;
    for case in 0..60 {
        let payload = match case % 2 {
            0 => hellos::contents(&mut random).write().expect("contents"),
            _ => hellos::payload(&mut random).0,
        };
        let Ok(contents) = reference::Contents::read(&payload) else {
            continue;
        };
        let written = contents.write().expect("what was read");
        otherwise += usize::from(written != payload);
        let said = good(&run_in(&folder, &["hello", "--hex", &upper_hex(&payload)]));
        fs::write(folder.join("said"), &said).expect("lines");
        let words = ["hello-write", "--text", "said"];
        let digits = good(&run_in(&folder, &words));
        assert_eq!(digits, upper_hex(&written) + "\n");
        // the same facts, and from standard input in another order of the kinds
        let object = good(&run_in(&folder, &[&words[..], &["--json"]].concat()));
        let expected = format!(
            "{{\"payload_bytes\":{},\"payload\":\"{}\"}}\n",
            written.len(),
            digits.trim()
        );
        assert_eq!(object, expected);
        let kind = |line: &&str| line.starts_with("nickname");
        let (first, rest): (Vec<&str>, Vec<&str>) = said.lines().partition(kind);
        fs::write(folder.join("said"), [rest, first].concat().join("\n")).expect("lines");
        let line = "\"$@\" <said";
        assert_eq!(
            good(&shell_in(&folder, line, &["hello-write", "--text", "-"])),
            digits
        );
    }
    assert!(otherwise > 5);
}

#[test]
fn hello_write_takes_remarks_and_addresses_in_any_form() {
    let folder = folder("hello_write_lines");
    let lines = "# a console\n\n  holding  time 0x1E s, flags 5 # seconds\r\nVLAN 10: 02:00:00:00:00:01 020000000002\nFGL 11259375, multihomed:\n\
                 nickname none\nnickname 0x1, priority 0, tree root priority 1; nickname FFFF, priority 255, tree root priority 65535\n\
                 trees from 7:\n";
    fs::write(folder.join("said"), lines).expect("lines");
    let digits = good(&run_in(&folder, &["hello-write", "--text", "said"]));
    assert_eq!(
        digits,
        "FB090000011604001E0005F21700000000000600060A0000010001FFFFFFFFFF08020007\
         FB1B00000117100000000A0200000000010200000000021704C0ABCDEF\n"
    );
}

#[test]
fn hello_write_refuses_other_lines_and_what_cannot_be_written() {
    let folder = folder("hello_write_bad");
    let words = ["hello-write", "--text", "said"];
    bad(&run_in(&folder, &words), 1, "said: No such file");
    bad(&run_in(&folder, &words[..1]), 2, "--text FILE is needed");
    let first = "holding time 30 s, flags 0000\n";
    let macs = |count: usize| format!("VLAN 10:{}\n", " 02-00-00-00-00-01".repeat(count));
    let many = |line: &str, count: usize| format!("{first}{}", line.repeat(count));
    let trees = |count: usize| format!("{first}trees from 1:{}\n", " 1234".repeat(count));
    let record = "nickname 1234, priority 1, tree root priority 2; ";
    let records =
        |count: usize| format!("{first}{}\n", record.repeat(count).trim_end_matches("; "));
    let line = |line: &str| format!("{first}{line}\n");
    for (lines, said) in [
        (String::new(), "refused 26: "),
        (macs(1), "refused 26: "),
        (macs(42), "refused 25: "),
        (many(first, 1), "refused 25: "),
        (line("VLAN 4096:"), "refused 25: "),
        (line("FGL 16777216:"), "refused 25: "),
        (line("trees from 65536:"), "refused 25: "),
        (line("trees from 1: 12345"), "refused 25: "),
        (
            line("nickname 1234, priority 256, tree root priority 0"),
            "refused 25: ",
        ),
        ("holding time 65536 s, flags 0\n".into(), "refused 25: "),
        (records(50), "refused 25: "),
        (trees(124), "refused 25: "),
        (many(&macs(42), 1), "refused 25: "),
        (many(&macs(41), 36), "more than a frame has room for"),
        (many(&macs(41), 400), "more than a frame has room for"),
        (
            line("trees of 1: 1234"),
            "said: line 2 is not a line of `hello`",
        ),
        (line("nickname 1234"), "said: line 2 is not"),
        (
            line("nickname 1234, priority 1, tree root priority 2; 1235"),
            "said: line 2 is not",
        ),
        (line("nickname none, priority 1"), "said: line 2 is not"),
        (line("VLAN: 02-00-00-00-00-01"), "said: line 2 is not"),
        (line("VLAN 10: 02-00-00-00-00"), "said: line 2 is not"),
        (
            line("VLAN 10: multihomed multihomed"),
            "said: line 2 is not",
        ),
        (line("vlan 10:"), "said: line 2 is not"),
        ("holding time 30 s\n".into(), "said: line 1 is not"),
        (
            "holding time 30 s, flags 0000 1\n".into(),
            "said: line 1 is not",
        ),
        (line(&"#".repeat(30_000)), "said: line 2 is not"),
    ] {
        fs::write(folder.join("said"), &lines).expect("lines");
        bad(&run_in(&folder, &words), 1, said);
    }
    for lines in [records(49), trees(123), many(&macs(41), 35)] {
        fs::write(folder.join("said"), &lines).expect("lines");
        good(&run_in(&folder, &words));
    }
}

/// Document 02, 2026-13: with `--smart on` a frame with the port's own ingress nickname is delivered and teaches nothing.
#[test]
fn the_option_smart_takes_frames_with_the_own_ingress_nickname() {
    let folder = folder("smart");
    let frame = generate::Frame {
        compact: false,
        outer_destination: PORT.port,
        outer_source: 0x0200_0000_00B2,
        outer_tag: None,
        trill: 0x22F3,
        version: 0,
        reserved: 0,
        multicast: false,
        option_length: 0,
        hop_count: 5,
        egress: PORT.nickname as u16,
        ingress: PORT.nickname as u16,
        options: Vec::new(),
        inner_destination: 0x0200_0000_000D,
        inner_source: 0x0200_0000_0001,
        label: vec![0x81, 0x00, 0x00, 0x0A],
        content: vec![0x08, 0x00, 0x45, 0x00],
    };
    fs::write(
        folder.join("in"),
        captures::capture(USUAL, &[frame.bytes()]),
    )
    .expect("a capture");
    let words = |smart| [&receive_words("in")[..], &["--no-ageing"], smart].concat();
    for (smart, said) in [
        (
            &["--smart", "on"][..],
            "delivered 16 bytes of VLAN 10, kept",
        ),
        (&["--smart=off"], "refused 9"),
        (&[], "refused 9"),
    ] {
        let printed = good(&run_in(&folder, &words(smart)));
        assert!(printed.contains(said), "{printed}");
        let table = bytes(&folder.join("table"));
        assert!(table.ends_with(&[0; 16 * RECORD]), "{printed}");
        fs::remove_file(folder.join("table")).expect("the table");
    }
}

/// Document 02, 2026-12: the option names the R bit, and reaches the call.
#[test]
fn the_option_multihomed_names_the_bit_that_marks_frames() {
    let folder = folder("multihomed");
    let from = |nickname, reserved, compact| {
        let frame = generate::Frame {
            compact,
            outer_destination: PORT.port,
            outer_source: 0x0200_0000_00B2,
            outer_tag: None,
            trill: 0x22F3,
            version: 0,
            reserved,
            multicast: false,
            option_length: 0,
            hop_count: 5,
            egress: PORT.nickname as u16,
            ingress: nickname,
            options: Vec::new(),
            inner_destination: 0x0200_0000_000D,
            inner_source: 0x0200_0000_0001,
            label: vec![0x81, 0x00, 0x00, 0x0A],
            content: vec![0x08, 0x00, 0x45, 0x00],
        };
        frame.bytes()
    };
    let (first, second) = (0b10, 0b01);
    let frames = [
        from(0x1234, first, false),
        from(0x5678, first, true),
        from(0x1234, first, true),
        from(0x9ABC, second, false),
    ];
    fs::write(folder.join("in"), captures::capture(USUAL, &frames)).expect("a capture");
    let words = |bit| [&receive_words("in")[..], &["--no-ageing"], bit].concat();
    for (multihomed, bit) in [
        (1, &["--multihomed", "first"][..]),
        (2, &["--multihomed=second"]),
        (0, &[]),
    ] {
        let settings = reference::Settings { multihomed, ..PORT };
        let mut table = vec![0; 16 * RECORD];
        for frame in &frames {
            reference::receive_port(&settings, &[], frame, &mut table, &mut [0; 16]);
        }
        let printed = good(&run_in(&folder, &words(bit)));
        assert!(bytes(&folder.join("table")).ends_with(&table), "{printed}");
        let marked = printed.matches(", multihomed").count();
        assert_eq!(marked > 0, multihomed > 0, "{printed}");
        fs::remove_file(folder.join("table")).expect("the table");
        let objects = good(&run_in(&folder, &[&words(bit)[..], &["--json"]].concat()));
        same_facts(&printed, &objects);
        fs::remove_file(folder.join("table")).expect("the table");
    }
    let said = "--multihomed takes first or second, not `third`";
    bad(
        &run_in(&folder, &words(&["--multihomed", "third"])),
        2,
        said,
    );
}

/// A marked frame of `frame_from`: the first R bit, or the second.
fn marked(mut frame: Vec<u8>, bit: u8) -> Vec<u8> {
    frame[14] |= bit;
    frame
}

#[test]
fn two_homes_stand_side_by_side_where_the_option_names_the_bit() {
    let folder = folder("homes");
    let mac = 0x0200_0000_0001;
    let from = |nickname| frame_from(mac, 10, nickname);
    for (option, bit, number) in [("first", 0x20, 1), ("second", 0x10, 2)] {
        let frames = [
            from(0x1234),
            marked(from(0x1235), bit),
            marked(from(0x1234), bit),
            marked(from(0x1235), bit),
            // the other bit does not mark
            marked(from(0x1236), 0x30 ^ bit),
        ];
        fs::write(folder.join("in"), captures::capture(USUAL, &frames)).expect("a capture");
        let _ = fs::remove_file(folder.join("table"));
        let files = [
            "receive",
            "in",
            "--table",
            "table",
            "--slots",
            "3",
            "--no-ageing",
        ];
        let words = [&files[..], &["--multihomed", option], &SETTINGS].concat();
        let printed = good(&run_in(&folder, &words));
        let wanted = [
            "slot 0: free -> learned VLAN 10 02-00-00-00-00-01 behind 1234, confidence 32, 1200 s",
            "slot 0: VLAN 10 02-00-00-00-00-01 behind 1234 -> 1235, now multihomed",
            "slot 1: free -> learned VLAN 10 02-00-00-00-00-01 behind 1234, confidence 32, 1200 s, multihomed",
            "table unchanged (slot 0: learned VLAN 10 02-00-00-00-00-01 behind 1235, confidence 32, 1200 s, multihomed)",
            "slot 0: VLAN 10 02-00-00-00-00-01 behind 1235 -> 1236, no longer multihomed; \
             slot 1: VLAN 10 02-00-00-00-00-01 behind 1234 -> free",
        ];
        for (place, wanted) in wanted.iter().enumerate() {
            assert_eq!(parts(&printed, place + 1)[2], *wanted);
        }
        let settings = reference::Settings {
            multihomed: number,
            ..PORT
        };
        let mut table = vec![0; 3 * RECORD];
        for frame in &frames {
            reference::receive_port(&settings, &[], frame, &mut table, &mut [0; 9_216]);
        }
        assert!(bytes(&folder.join("table")) == table);
    }
}

/// A configured record keeps frames whatever its slot, and is its pair's only record.
#[test]
fn a_configured_record_takes_the_place_of_all_homes() {
    let folder = folder("one_home");
    let home = |nickname, multihomed| Entry {
        label: vlan(10),
        mac: 0x0200_0000_0001,
        nickname,
        confidence: 9,
        seconds: 9,
        multihomed,
    };
    let table = [
        write(true, &home(0x1234, true)),
        [0; RECORD],
        write(true, &home(0x1235, true)),
    ]
    .concat();
    fs::write(folder.join("table"), &table).expect("a table");
    let pair = ["--table", "table", "--vlan", "10", "--mac", "020000000001"];
    let set = [&["set"][..], &pair, &["--nickname", "1236"]].concat();
    assert_eq!(
        good(&run_in(&folder, &set)),
        "slot 0: learned -> configured VLAN 10 02-00-00-00-00-01 behind 1234 -> 1236, confidence 9 -> 255, 9 -> 0 s, \
         no longer multihomed\n\
         slot 2: VLAN 10 02-00-00-00-00-01 behind 1235 -> free\n"
    );
    // one that stands above a home keeps frames and is the one that is removed
    let above = [
        write(true, &home(0x1234, true)),
        write(false, &home(0x1235, false)),
    ]
    .concat();
    fs::write(folder.join("table"), &above).expect("a table");
    let frames = [marked(frame_from(0x0200_0000_0001, 10, 0x1234), 0x20)];
    fs::write(folder.join("in"), captures::capture(USUAL, &frames)).expect("a capture");
    let receive = [
        "receive",
        "in",
        "--table",
        "table",
        "--no-ageing",
        "--multihomed",
        "first",
    ];
    let printed = good(&run_in(&folder, &[&receive[..], &SETTINGS].concat()));
    let kept = "kept | table unchanged (slot 1: configured VLAN 10 02-00-00-00-00-01 behind 1235, confidence 9, 9 s)";
    assert!(printed.contains(kept), "{printed}");
    assert_eq!(
        good(&run_in(&folder, &[&["unset"][..], &pair].concat())),
        "slot 1: VLAN 10 02-00-00-00-00-01 behind 1235 -> free\n"
    );
}

/// The sentence for P1 of a payload, by the driver.
fn why_words<'a>(ingress: &'a str, hex: &'a str, slot: &'a str) -> Vec<&'a str> {
    let table = ["why", "--table", "table", "--slot", slot];
    [&table[..], &["--ingress", ingress, "--hex", hex]].concat()
}

#[test]
fn why_tells_the_reason_for_a_slot_and_for_an_address() {
    let folder = folder("why");
    let station = 0x0200_0000_0001;
    let other = Entry {
        label: vlan(10),
        mac: station,
        nickname: 0x5678,
        confidence: 20,
        seconds: 300,
        multihomed: true,
    };
    let table = [
        record(true, vlan(10), station, 20, 300),
        [0; RECORD],
        [0xC0; RECORD],
        record(false, vlan(10), 0x0200_0000_0002, 20, 0),
        write(true, &other),
        record(true, Label::Fine(10), station, 20, 300),
        record(true, vlan(10), 0x0200_0000_0003, 20, 300),
    ]
    .concat();
    fs::write(folder.join("table"), &table).expect("a table");
    // P2's payload, and one that names a MAC
    let p2 = "01 12 34 01 00 0A 00 0C";
    let mac = "00 00 09 00 07 06 020000000001 01 08 0001 0002 000A 000A";
    for (ingress, hex, slot, sentence) in [
        ("0102", p2, "0", "cleared: nickname 1234 (listed, place 0), VLAN 10 by block 0, every MAC"),
        ("1234", p2, "1", "free"),
        ("1234", p2, "2", "stays: spoilt"),
        ("1234", p2, "3", "stays: configured"),
        ("1234", p2, "4", "stays: nickname 5678 is not meant"),
        ("1234", p2, "5", "stays: FGL 10 is not meant"),
        (
            "1234",
            mac,
            "0",
            "cleared: nickname 1234 (the sender's), VLAN 10 by TLV 2 of type 1, 02-00-00-00-00-01 by TLV 1 of type 7",
        ),
        ("1234", mac, "6", "stays: 02-00-00-00-00-03 is not meant"),
        ("5678", "00 00 0600", "4", "cleared: nickname 5678 (the sender's), VLAN 10 by TLV 0 of type 6, every MAC"),
    ] {
        let words = why_words(ingress, hex, slot);
        let printed = good(&run_in(&folder, &words));
        assert_eq!(printed, format!("slot {slot}: {sentence}\n"));
        let objects = good(&run_in(&folder, &[&words[..], &["--json"]].concat()));
        same_facts(&printed, &objects);
        // and it is what the second implementation answers
        let kind = reference::why(
            u32::from_str_radix(ingress, 16).expect("a nickname"),
            &hex_bytes(hex),
            slot.parse().expect("a slot"),
            &table,
        ) & 0xFF;
        let reason = WHY[kind as usize - 64];
        assert!(objects.contains(&format!("\"why\":\"{reason}\"")), "{objects}");
    }
    // an address has a sentence for each of its records, or for that with a label
    let address = [
        "why",
        "--table",
        "table",
        "--ingress",
        "1234",
        "--hex",
        p2,
        "--mac",
        "020000000001",
    ];
    let lines = "slot 0: cleared: nickname 1234 (listed, place 0), VLAN 10 by block 0, every MAC\n\
                 slot 4: stays: nickname 5678 is not meant\n\
                 slot 5: stays: FGL 10 is not meant\n";
    assert_eq!(good(&run_in(&folder, &address)), lines);
    let labelled = |option, number| {
        let words = [&address[..], &[option, number]].concat();
        run_in(&folder, &words)
    };
    let one = "slot 5: stays: FGL 10 is not meant\n";
    assert_eq!(good(&labelled("--fgl", "10")), one);
    assert_eq!(good(&labelled("--vlan", "10")).lines().count(), 2);
    bad(
        &labelled("--vlan", "11"),
        1,
        "no slot of table has the address",
    );
    // what the library refuses is said
    let corrupt = "refused 15: flush payload corrupt: byte 2 of the payload: a TLV of type 6 has length 1, not 0";
    bad(
        &run_in(&folder, &why_words("1234", "0000060100", "0")),
        1,
        corrupt,
    );
    bad(
        &run_in(&folder, &why_words("1234", "", "0")),
        1,
        "K-nicks is missing",
    );
    let past = "refused 24: k is 0, or the slot number is n or more";
    bad(&run_in(&folder, &why_words("1234", p2, "7")), 1, past);
    assert!(bytes(&folder.join("table")) == table);
    assert_eq!(names(&folder), ["table"]);
}

/// The words of an object for the kinds from 64 on.
const WHY: [&str; 7] = [
    "free",
    "spoilt",
    "configured",
    "nickname not meant",
    "label not meant",
    "MAC not meant",
    "cleared",
];

fn hex_bytes(digits: &str) -> Vec<u8> {
    let digits: String = digits.split(' ').collect();
    let byte = |at| u8::from_str_radix(&digits[at..at + 2], 16).expect("digits");
    (0..digits.len()).step_by(2).map(byte).collect()
}

/// What the object of a cleared record says of its places, by the word.
fn places_of(word: u64) -> Vec<String> {
    let place = |lowest: u32| word >> lowest & 0x3F_FFFF;
    let nickname = match word >> 16 & 1 {
        1 => "\"sender\":true,\"label_by\"".to_string(),
        _ => format!("\"sender\":false,\"nickname_place\":{},", word >> 8 & 0xFF),
    };
    let label = match word >> 17 & 1 {
        1 => format!("\"label_by\":\"TLV\",\"label_place\":{},", place(18)),
        _ => format!("\"label_by\":\"block\",\"label_place\":{},", place(18)),
    };
    let mac = match word >> 63 {
        1 => "\"every_mac\":true}".to_string(),
        _ => format!(
            "\"every_mac\":false,\"mac_by\":\"TLV\",\"mac_place\":{},",
            place(40)
        ),
    };
    vec![nickname, label, mac]
}

#[test]
fn why_tells_the_places_that_the_second_implementation_names() {
    let folder = folder("why_places");
    let mut random = Random::new(2608);
    let mut cleared = 0;
    for _ in 0..60 {
        let pool = generate::Pool::new(&mut random);
        let payload = generate::good_payload(&mut random, &pool);
        let mut table = generate::good_length_table(&mut random, &pool);
        table.truncate(13 * RECORD);
        let ingress = u32::from(pool.nicknames[0]);
        // a slot that is cleared, where there is one
        let slots = 0..(table.len() / RECORD) as u64;
        let word = |slot| reference::why(ingress, &payload, slot, &table);
        let slot = slots.max_by_key(|slot| word(*slot) & 0xFF).expect("a slot");
        let word = word(slot);
        fs::write(folder.join("table"), &table).expect("a table");
        let hex: String = payload.iter().map(|byte| format!("{byte:02x}")).collect();
        let (slot, ingress) = (slot.to_string(), format!("{ingress:04X}"));
        let words = [&why_words(&ingress, &hex, &slot)[..], &["--json"]].concat();
        let printed = good(&run_in(&folder, &words));
        let reason = format!(
            "{{\"slot\":{slot},\"why\":\"{}\",",
            WHY[(word & 0xFF) as usize - 64]
        );
        assert!(printed.starts_with(&reason), "{printed}");
        if word & 0xFF == 70 {
            cleared += 1;
            for part in places_of(word) {
                assert!(printed.contains(&part), "`{part}` is not in {printed}");
            }
        }
    }
    assert!(cleared > 10, "only {cleared} cleared");
}

#[test]
fn why_tells_the_frame_of_a_capture_that_cleared_an_address() {
    let folder = folder("why_capture");
    let capture = data("hall.pcap");
    let capture = capture.to_str().expect("UTF-8");
    let files = ["why", capture, "--table", "table", "--slots", "16"];
    let of = |mac| [&files[..], &SETTINGS, &["--mac", mac]].concat();
    let words = of("02-00-00-00-00-02");
    let printed = good(&run_in(&folder, &words));
    assert_eq!(
        printed,
        "frame 11: 2025-11-16T08:00:10.133456Z General, 60 bytes, VLAN 1, 02-00-00-00-00-B2 to 01-80-C2-00-00-42, 1234 to 0B0B (M), \
         channel 009 | slot 2: cleared: nickname 1234 (listed, place 0), VLAN 12 by TLV 0 of type 1, 02-00-00-00-00-02 by TLV 1 of type 7\n\
         13 frames, 2 flushes: 1 cleared, last by frame 11\n"
    );
    same_facts(
        &printed,
        &good(&run_in(&folder, &[&words[..], &["--json"]].concat())),
    );
    // the line of `receive` tells the same slot
    let received = good(&run_in(&folder, &receive_words(capture)));
    assert!(parts(&received, 11)[2].starts_with("slot 2: VLAN 12 02-00-00-00-00-02"));
    for name in ["table", "out", "table.aged"] {
        fs::remove_file(folder.join(name)).expect("a file");
    }
    // no flush met it
    let output = run_in(&folder, &of("02-00-00-00-00-77"));
    assert_eq!(output.status.code(), Some(1));
    assert_eq!(text(&output.stdout), "13 frames, 2 flushes: 0 cleared\n");
    assert_eq!(names(&folder), [] as [&str; 0]);
}

#[test]
fn why_over_a_capture_tells_each_flush_and_what_aged() {
    let folder = folder("why_each");
    let from = |number: u64| frame_from(0x0200_0000_0000 + number, 10, 0x1234);
    let frames = [
        (0, from(1)),
        (1, from(2)),
        (2, flush_frame(&hex_bytes("00 01 000B000B"))),
        (3, flush_frame(&hex_bytes("00 01 000A000A 00"))),
        (4, from(1)),
        // a corrupt one changes nothing and is not told of
        (5, flush_frame(&hex_bytes("00 00 0601"))),
        (1300, from(2)),
        (1301, flush_frame(&hex_bytes("00 00 0600"))),
    ];
    fs::write(folder.join("in"), capture_at(&frames)).expect("a capture");
    let files = ["why", "in", "--table", "table", "--slots", "4"];
    let words = |more: &[&'static str]| [&files[..], &SETTINGS, more].concat();
    let sentences = |printed: &str| -> Vec<String> {
        let lines = printed.lines();
        lines
            .map(|line| line.split(" | ").last().expect("it").to_string())
            .collect()
    };
    let cleared = "cleared: nickname 1234 (the sender's), VLAN 10 by";
    let printed = good(&run_in(&folder, &words(&["--mac", "020000000001"])));
    assert_eq!(
        sentences(&printed),
        [
            "slot 0: stays: VLAN 10 is not meant".to_string(),
            format!("slot 0: {cleared} block 0, every MAC"),
            "slot 0: VLAN 10 02-00-00-00-00-01 behind 1234 -> free".to_string(),
            "8 frames, 3 flushes: 1 cleared, last by frame 4".to_string(),
        ]
    );
    assert!(
        printed.lines().nth(2).expect("it").starts_with("aged: "),
        "{printed}"
    );
    let printed = good(&run_in(&folder, &words(&["--slot", "1"])));
    assert_eq!(
        sentences(&printed),
        [
            "slot 1: stays: VLAN 10 is not meant".to_string(),
            format!("slot 1: {cleared} block 0, every MAC"),
            "slot 1: free".to_string(),
            "8 frames, 3 flushes: 1 cleared, last by frame 4".to_string(),
        ]
    );
    let still = good(&run_in(
        &folder,
        &words(&["--mac", "020000000001", "--no-ageing"]),
    ));
    assert!(
        still.ends_with("8 frames, 3 flushes: 2 cleared, last by frame 8\n"),
        "{still}"
    );
    assert_eq!(names(&folder), ["in"]);
}

#[test]
fn bad_command_lines_of_why_get_a_message_and_status_2() {
    let folder = folder("why_usage");
    fs::write(folder.join("table"), [0; RECORD]).expect("a table");
    let table = ["why", "--table", "table"];
    let hex = ["--hex", "0000", "--ingress", "1234"];
    for (words, said) in [
        (&["--slot", "0"][..], "one of a capture and --hex is needed"),
        (
            &["in", "--slot", "0", "--hex", "0000"],
            "one of a capture and --hex is needed",
        ),
        (
            &["--slot", "0", "--hex", "0000"],
            "--hex and --ingress go together",
        ),
        (
            &["in", "--slot", "0", "--ingress", "1234"],
            "--hex and --ingress go together",
        ),
        (
            &["--slot", "0", "--hex", "000", "--ingress", "1"],
            "two hexadecimal digits for each byte",
        ),
        (
            &["--slot", "0", "--hex", "00 0g", "--ingress", "1"],
            "two hexadecimal digits for each byte",
        ),
        (
            &["--slot", "4096", "--hex", "00", "--ingress", "1"],
            "--slot takes a number from 0 to 4095",
        ),
        (&["in", "--slot", "0"], "settings outside their ranges"),
        (
            &["table", "--slot", "0"],
            "the capture and --table are different files",
        ),
    ] {
        bad(&run_in(&folder, &[&table[..], words].concat()), 2, said);
    }
    for (words, said) in [
        (&[][..], "one of --slot and --mac is needed"),
        (
            &["--slot", "0", "--mac", "020000000001"],
            "one of --slot and --mac is needed",
        ),
        (
            &["--slot", "0", "--vlan", "1"],
            "--vlan and --fgl go with --mac",
        ),
        (
            &["--mac", "020000000001", "--vlan", "1", "--fgl", "1"],
            "--vlan and --fgl are two labels",
        ),
    ] {
        bad(
            &run_in(&folder, &[&table[..], &hex, words].concat()),
            2,
            said,
        );
    }
    bad(
        &run_in(&folder, &["why", "--slot", "0"]),
        2,
        "--table FILE is needed",
    );
    let files = ["why", "in", "--table", "table", "--slot", "1"];
    let past = "table has 1 slots, and --slot says 1";
    bad(&run_in(&folder, &[&files[..], &SETTINGS].concat()), 1, past);
}

/// The report that README.md shows is that of the table which the worked example leaves.
#[test]
fn the_report_of_the_readme_is_real() {
    let folder = folder("readme_report");
    let capture = data("hall.pcap");
    good(&run_in(
        &folder,
        &receive_words(capture.to_str().expect("UTF-8")),
    ));
    let printed = good(&run_in(&folder, &["report", "--table", "table"]));
    let shown: String = printed
        .lines()
        .map(|line| format!("    {line}\n"))
        .collect();
    let readme = text(&bytes(&package().join("../README.md")));
    assert!(readme.contains(&format!("\n\n{shown}\n")), "{shown}");
}

#[test]
fn report_prints_what_the_program_prints() {
    let folder = folder("report");
    let report = ["report", "--table", "table"];
    let entry = |nickname| Entry {
        label: vlan(10),
        mac: 0x0200_0000_0001,
        nickname,
        confidence: 20,
        seconds: 300,
        multihomed: false,
    };
    let table = [
        write(true, &entry(0xFFBF)),
        write(true, &entry(0x1234)),
        write(false, &entry(0x1234)),
        [0; RECORD],
        [0xC0; RECORD],
        write(true, &entry(0x1234)),
    ]
    .concat();
    fs::write(folder.join("table"), &table).expect("a table");
    let printed = good(&run_in(&folder, &report));
    assert_eq!(printed, "1234 2 1\nFFBF 1 0\nfree 1\nspoilt 1\n");
    assert_eq!(printed, reference::reported(&table));
    let objects = good(&run_in(&folder, &[&report[..], &["--json"]].concat()));
    same_facts(&printed, &objects);
    let first = "{\"nickname\":\"1234\",\"learned\":2,\"configured\":1}\n";
    assert!(objects.starts_with(first), "{objects}");
    // a table of the most slots and of as many nicknames
    let table = generate::all_different(&mut Random::new(14), TABLE / RECORD);
    fs::write(folder.join("table"), &table).expect("a table");
    assert_eq!(good(&run_in(&folder, &report)), reference::reported(&table));
    // the line in front says the width, and is no part of the table; without it the width is not guessed
    let fourteen = write(true, &entry(0x1234)).repeat(14);
    let wide = [&b"shinglebar table 15\n"[..], &fourteen].concat();
    fs::write(folder.join("table"), &wide).expect("a table");
    let lines = "1234 14 0\nfree 0\nspoilt 0\n";
    assert_eq!(good(&run_in(&folder, &report)), lines);
    fs::write(folder.join("table"), &fourteen).expect("a table");
    let output = run_in(&folder, &report);
    bad(
        &output,
        1,
        "table has 210 bytes and does not say of which width",
    );
    assert_eq!(text(&output.stdout), "");
    // what is no table has the program's line, and the reason beside it
    for (length, said) in [
        (0, "table is no address table: it has 0 bytes; refused 2"),
        (1, "table is no address table: it has 1 bytes; refused 2"),
        (
            OLD_RECORD,
            "table has records of 14 bytes; `widen` makes them 15",
        ),
        (
            TABLE + 1,
            "table is no address table: it has 61441 or more bytes",
        ),
    ] {
        fs::write(folder.join("table"), vec![0; length]).expect("a table");
        let output = run_in(&folder, &report);
        bad(&output, 1, said);
        assert_eq!(text(&output.stdout), "refused 2\n");
    }
    fs::remove_file(folder.join("table")).expect("the table");
    bad(&run_in(&folder, &report), 1, "table is not there");
    bad(&run_in(&folder, &["report"]), 2, "--table FILE is needed");
    assert_eq!(names(&folder), [] as [&str; 0]);
}
