//! The morning report (document 02, 2026-14), compared through the C boundary; and the program `morning_report`.

use std::collections::BTreeMap;
use std::fs;
use std::io::{Read, Write};
use std::path::{Path, PathBuf};
use std::process::{Command, Stdio};
use std::thread;
use std::time::Duration;

use shinglebar_tests::c_program;
use shinglebar_tests::compare;
use shinglebar_tests::generate;
use shinglebar_tests::random::Random;
use shinglebar_tests::reference::{self, reported, Record, RECORD, SLOTS, TABLE};
use shinglebar_tests::run::{self, Tally};

/// P1 of document 01, widened: learned, VLAN 10, 02-00-00-00-00-01, nickname 1234.
const P1: [u8; RECORD] = [
    0x40, 0x00, 0x01, 0x40, 0x40, 0x00, 0x00, 0x00, 0x00, 0x22, 0x46, 0x82, 0x81, 0x2C, 0x00,
];

const P1_REPORT: &str = "1234 1 0\nfree 0\nspoilt 0\n";
const REFUSED: &str = "refused 2\n";
const LONGEST: usize = 36_880;

/// The text that the library writes, where it has room.
fn written(table: &[u8]) -> String {
    let mut out = vec![0; LONGEST];
    let word = compare::report(&mut Random::new(1), table, &mut out);
    assert_eq!(word & 0xFF, 64);
    out.truncate((word >> 8) as usize);
    String::from_utf8(out).expect("a text")
}

/// What a report says: the counts of each nickname in the order of the lines, free and spoilt.
struct Lines {
    nicknames: Vec<(u16, usize, usize)>,
    free: usize,
    spoilt: usize,
}

/// Reads a report back; it panics where a line is in another form.
fn read(text: &str) -> Lines {
    assert!(text.ends_with('\n'));
    let mut lines: Vec<Vec<&str>> = text.lines().map(|line| line.split(' ').collect()).collect();
    let count = |word: &str| -> usize {
        let count: usize = word.parse().expect("a count");
        assert_eq!(word, count.to_string());
        count
    };
    let mut last = |name: &str| match lines.pop().expect("a line")[..] {
        [found, number] if found == name => count(number),
        ref other => panic!("{other:?}"),
    };
    let (spoilt, free) = (last("spoilt"), last("free"));
    let nickname = |line: Vec<&str>| {
        let [nickname, learned, configured] = line[..] else {
            panic!("{line:?}")
        };
        let number = u16::from_str_radix(nickname, 16).expect("a nickname");
        assert_eq!(nickname, format!("{number:04X}"));
        (number, count(learned), count(configured))
    };
    Lines {
        nicknames: lines.into_iter().map(nickname).collect(),
        free,
        spoilt,
    }
}

#[test]
fn p1_alone_gives_three_lines() {
    assert_eq!(written(&P1), P1_REPORT);
}

#[test]
fn worked_tables_give_their_lines() {
    let mut configured = P1;
    configured[0] = 0x80;
    let mut marked = P1;
    marked[14] = 0x80;
    // nickname 1235, and FFBF; state 0 with another bit, and a bit behind the mark
    let mut next = P1;
    next[11] ^= 0x20;
    let mut highest = P1;
    highest[9..12].copy_from_slice(&[0x3F, 0xF7, 0xE2]);
    let (mut state_0, mut behind) = (P1, P1);
    state_0[0] = 0;
    behind[14] = 1;
    for (records, text) in [
        (&[[0; RECORD]][..], "free 1\nspoilt 0\n"),
        (&[state_0, behind], "free 0\nspoilt 2\n"),
        (&[configured, P1], "1234 1 1\nfree 0\nspoilt 0\n"),
        // a marked record counts as learned
        (&[marked, P1, P1], "1234 3 0\nfree 0\nspoilt 0\n"),
        (
            &[highest, next, [0; RECORD], P1, behind, configured],
            "1234 1 1\n1235 1 0\nFFBF 1 0\nfree 1\nspoilt 1\n",
        ),
    ] {
        assert_eq!(written(&records.concat()), text);
    }
    let many = [P1.repeat(1000), configured.repeat(99)].concat();
    assert_eq!(written(&many), "1234 1000 99\nfree 0\nspoilt 0\n");
}

#[test]
fn the_longest_report_has_room_and_no_other_is_longer() {
    let mut random = run::random("the_longest_report_has_room_and_no_other_is_longer");
    let table = generate::all_different(&mut random, SLOTS);
    let text = written(&table);
    assert_eq!((text.len(), text.lines().count()), (LONGEST, SLOTS + 2));
    // the same area, a byte shorter
    let mut out = vec![0xEE; LONGEST - 1];
    assert_eq!(compare::report(&mut random, &table, &mut out), 16);
    assert!(out.iter().all(|byte| *byte == 0xEE));
}

#[test]
fn lengths_at_the_ends_and_all_of_one_kind() {
    let mut random = run::random("lengths_at_the_ends_and_all_of_one_kind");
    for length in [0, 1, 14, 16, TABLE - 1, TABLE + 1, TABLE + RECORD] {
        assert_eq!(written(&random.bytes(length)), REFUSED, "{length} bytes");
    }
    for slots in [1, 2, 100, SLOTS] {
        let free = vec![0; slots * RECORD];
        assert_eq!(written(&free), format!("free {slots}\nspoilt 0\n"));
        let spoilt = generate::all_spoilt(&mut random, slots);
        assert_eq!(written(&spoilt), format!("free 0\nspoilt {slots}\n"));
        assert_eq!(
            written(&P1.repeat(slots)),
            format!("1234 {slots} 0\nfree 0\nspoilt 0\n")
        );
        let different = generate::all_different(&mut random, slots);
        assert_eq!(read(&written(&different)).nicknames.len(), slots);
    }
}

fn count_report(tally: &mut Tally, table: &[u8], text: &str) {
    if text == REFUSED {
        tally.situation("a bad length");
        return;
    }
    let report = read(text);
    let slots = table.len() / RECORD;
    tally.situation(match report.nicknames.len() {
        0 => "no nickname",
        1 => "one nickname",
        2..=20 => "2 to 20 nicknames",
        21..=256 => "21 to 256 nicknames",
        _ => "more than 256 nicknames",
    });
    tally.situation(match report.free {
        0 => "none free",
        free if free == slots => "all free",
        _ => "some free",
    });
    tally.situation(match report.spoilt {
        0 => "none spoilt",
        spoilt if spoilt == slots => "all spoilt",
        _ => "some spoilt",
    });
    for (nickname, learned, configured) in report.nicknames {
        tally.situation(match (learned, configured) {
            (0, _) => "configured alone",
            (_, 0) => "learned alone",
            _ => "learned and configured",
        });
        tally.situation(match learned.max(configured) {
            ..=9 => "one digit",
            10..=99 => "two digits",
            100..=999 => "three digits",
            _ => "four digits",
        });
        match nickname {
            0x0001 => tally.situation("nickname 0001"),
            0xFFBF => tally.situation("nickname FFBF"),
            _ => {}
        }
    }
}

#[test]
fn a_report_is_what_the_paper_says() {
    run::cases(
        "a_report_is_what_the_paper_says",
        4,
        run::REPORT,
        &[
            "a bad length",
            "no nickname",
            "one nickname",
            "2 to 20 nicknames",
            "21 to 256 nicknames",
            "more than 256 nicknames",
            "none free",
            "some free",
            "all free",
            "none spoilt",
            "some spoilt",
            "all spoilt",
            "configured alone",
            "learned alone",
            "learned and configured",
            "one digit",
            "two digits",
            "three digits",
            "four digits",
            "nickname 0001",
            "nickname FFBF",
            "room for the text and no more",
            "a byte short of room",
            "a bad length without room",
        ],
        |random, tally| {
            let table = match random.below(200) {
                0 => P1.repeat(random.length(1000, SLOTS)),
                1 => generate::all_different(random, 4 * SLOTS / 5),
                2..=5 => {
                    let slots = random.length(1, 40);
                    generate::all_spoilt(random, slots)
                }
                _ => generate::crowd(random),
            };
            let text = reported(&table);
            count_report(tally, &table, &text);
            let room = match random.below(4) {
                0 => text.len(),
                1 => text.len() - 1,
                2 => text.len() + 9,
                _ => generate::area_length(random, text.len()),
            };
            let mut out = random.bytes(room);
            let word = compare::report(random, &table, &mut out);
            tally.word(word);
            match (word, room.cmp(&text.len())) {
                (16, _) if text == REFUSED => tally.situation("a bad length without room"),
                (16, _) if room + 1 == text.len() => tally.situation("a byte short of room"),
                (_, std::cmp::Ordering::Equal) => tally.situation("room for the text and no more"),
                _ => {}
            }
        },
    );
}

/// "All counts written add up to the number of slots"; the nicknames rise, and are those that some record has, with its counts.
#[test]
fn the_counts_add_up_and_the_nicknames_rise() {
    run::cases(
        "the_counts_add_up_and_the_nicknames_rise",
        8,
        &[],
        &["some nickname"],
        |random, tally| {
            let table = generate::crowd(random);
            let text = written(&table);
            if text == REFUSED {
                return;
            }
            let report = read(&text);
            let entries: usize = report.nicknames.iter().map(|(_, l, c)| l + c).sum();
            assert_eq!(entries + report.free + report.spoilt, table.len() / RECORD);
            assert!(report.nicknames.is_sorted_by(|(a, ..), (b, ..)| a < b));
            let mut had: BTreeMap<u16, (usize, usize)> = BTreeMap::new();
            for bytes in table.chunks_exact(RECORD) {
                match reference::read(bytes) {
                    Record::Learned(entry) => had.entry(entry.nickname).or_default().0 += 1,
                    Record::Configured(entry) => had.entry(entry.nickname).or_default().1 += 1,
                    _ => {}
                }
            }
            let told: BTreeMap<u16, (usize, usize)> = report
                .nicknames
                .iter()
                .map(|(nickname, learned, configured)| (*nickname, (*learned, *configured)))
                .collect();
            assert_eq!(told, had);
            if !had.is_empty() {
                tally.situation("some nickname");
            }
        },
    );
}

#[test]
fn the_header_passes_null_areas_of_report() {
    c_program::compile_and_run("null_report.c");
}

/// The fuzz target of report, without libFuzzer, on random inputs.
#[test]
fn the_fuzz_target_of_report_finds_nothing_on_random_inputs() {
    let mut random = run::random("the_fuzz_target_of_report_finds_nothing_on_random_inputs");
    c_program::fuzz_target("report", 300, || {
        let mut table = generate::crowd(&mut random);
        if table.len() > 60 * RECORD {
            table.truncate(60 * RECORD);
        }
        let room = match random.one_in(4) {
            true => random.number() as u16,
            false => generate::area_length(&mut random, reported(&table).len()) as u16,
        };
        [&room.to_be_bytes()[..], &table].concat()
    });
}

fn root() -> PathBuf {
    Path::new(env!("CARGO_MANIFEST_DIR")).join("..")
}

/// The program, which `make target/bin/morning_report` and the gate build.
fn program() -> PathBuf {
    let program = Path::new(env!("SHINGLEBAR_ARCHIVE")).with_file_name("../bin/morning_report");
    assert!(
        program.is_file(),
        "{} is missing: run `make target/bin/morning_report` first",
        program.display()
    );
    program
}

/// What the program prints of an input that comes in pieces, with a wait before each.
fn printed(pieces: &[&[u8]], wait: Duration) -> String {
    let mut child = Command::new(program())
        .stdin(Stdio::piped())
        .stdout(Stdio::piped())
        .spawn()
        .expect("the program runs");
    let mut to = child.stdin.take().expect("its input");
    let mut from = child.stdout.take().expect("its output");
    let reader = thread::spawn(move || {
        let mut text = String::new();
        from.read_to_string(&mut text).expect("a text");
        text
    });
    for piece in pieces {
        thread::sleep(wait);
        // It stops reading where the input is longer than any table.
        let _ = to.write_all(piece);
        let _ = to.flush();
    }
    drop(to);
    let status = child.wait().expect("its end");
    assert!(status.success(), "{status}");
    reader.join().expect("its text")
}

fn printed_of(table: &[u8]) -> String {
    printed(&[table], Duration::ZERO)
}

#[test]
fn the_program_prints_the_report_of_its_input() {
    let mut random = run::random("the_program_prints_the_report_of_its_input");
    assert_eq!(printed_of(&P1), P1_REPORT);
    for length in [0, 1, 14, TABLE + 1, TABLE + RECORD, 3 * TABLE] {
        assert_eq!(printed_of(&random.bytes(length)), REFUSED, "{length} bytes");
    }
    for table in [
        random.bytes(RECORD),
        random.bytes(TABLE),
        generate::all_different(&mut random, SLOTS),
        generate::all_spoilt(&mut random, SLOTS),
        vec![0; TABLE],
        vec![0; RECORD],
        P1.repeat(SLOTS),
    ] {
        assert_eq!(printed_of(&table), reported(&table));
    }
    for _ in 0..40 {
        let table = generate::crowd(&mut random);
        assert_eq!(printed_of(&table), reported(&table));
    }
}

#[test]
fn the_program_waits_for_a_slow_pipe() {
    let mut random = run::random("the_program_waits_for_a_slow_pipe");
    let wait = Duration::from_millis(20);
    let table = generate::all_different(&mut random, SLOTS);
    let pieces: Vec<&[u8]> = table.chunks(9_001).collect();
    assert_eq!(printed(&pieces, wait), reported(&table));
    // a byte at a time, and a record that is cut
    let bytes: Vec<&[u8]> = P1.chunks(1).collect();
    assert_eq!(printed(&bytes, wait), P1_REPORT);
    assert_eq!(printed(&bytes[..14], wait), REFUSED);
    // nothing at all
    assert_eq!(printed(&[&[]], wait), REFUSED);
}

/// "Its stored input is P1 widened, its stored output the three lines."
#[test]
fn the_program_s_stored_files_are_p1_and_its_lines() {
    let file = |name: &str| fs::read(root().join("crates/morning_report").join(name));
    assert_eq!(file("stdin").expect("its input"), P1);
    assert_eq!(file("stdout").expect("its output"), P1_REPORT.as_bytes());
}

/// `make report TABLE=file` runs the program, also on a file that says its width in front of the records.
#[test]
fn make_report_prints_the_report_of_a_table_file() {
    program();
    let folder = Path::new(env!("CARGO_TARGET_TMPDIR")).join("report");
    fs::create_dir_all(&folder).expect("a folder");
    let report = |bytes: &[u8]| {
        let file = folder.join("table");
        fs::write(&file, bytes).expect("a table");
        let output = Command::new("make")
            .current_dir(root())
            .args(["--no-print-directory", "-s", "report"])
            .arg(format!("TABLE={}", file.display()))
            .output()
            .expect("make");
        let said = String::from_utf8_lossy(&output.stderr).into_owned();
        assert!(output.status.success(), "{said}");
        String::from_utf8(output.stdout).expect("a text")
    };
    assert_eq!(report(&P1), P1_REPORT);
    let fourteen = P1.repeat(14);
    let wide = [&b"shinglebar table 15\n"[..], &fourteen].concat();
    assert_eq!(report(&wide), "1234 14 0\nfree 0\nspoilt 0\n");
    assert_eq!(report(&fourteen), "1234 14 0\nfree 0\nspoilt 0\n");
    assert_eq!(report(&P1[1..]), REFUSED);
    let none = Command::new("make")
        .current_dir(root())
        .args(["--no-print-directory", "-s", "report"])
        .output()
        .expect("make");
    assert!(!none.status.success());
    let said = String::from_utf8_lossy(&none.stderr).into_owned();
    assert!(said.contains("TABLE=file is needed"), "{said}");
}
