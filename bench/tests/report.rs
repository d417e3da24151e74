//! The hand-written report is the library's on random tables, in areas with and without room.
//!
//! SHINGLEBAR_SEED and SHINGLEBAR_CASES set the seed and the count.

use shinglebar_bench::baseline;
use shinglebar_bench::inputs::{Entry, CONFIGURED, RECORD, SLOTS};
use shinglebar_bench::library::{shinglebar_report, Widen};
use shinglebar_bench::random::Random;

const LONGEST: u64 = 36_880;

fn number_of(variable: &str, otherwise: u64) -> u64 {
    std::env::var(variable).map_or(otherwise, |text| text.parse().expect("a number"))
}

fn call(report: Widen, table: &[u8], room: u64) -> (u64, Vec<u8>) {
    let mut out = vec![0xEE; room as usize];
    // SAFETY: the areas do not overlap and are as long as said.
    let word = unsafe { report(table.as_ptr(), table.len(), out.as_mut_ptr(), out.len()) };
    (word, out)
}

/// A table of learned, configured, free and spoilt slots, of few nicknames or many.
fn table(random: &mut Random) -> Vec<u8> {
    let slots = match random.one_in(20) {
        true => SLOTS as u64,
        false => random.between(1, 200),
    };
    let first = random.between(1, 0xFFBF - SLOTS as u64);
    let reach = random.pick(&[0, 1, 15, 300, SLOTS as u64]);
    let record = |random: &mut Random| match random.between(0, 15) {
        0 | 1 => [0; RECORD],
        2 => [(); RECORD].map(|()| random.byte()),
        number => {
            let mut entry = Entry::any(random);
            entry.nickname = (first + random.between(0, reach)) as u16;
            if number < 7 {
                entry.state = CONFIGURED;
            }
            entry.multihomed = random.one_in(8);
            entry.bytes()
        }
    };
    let mut bytes: Vec<u8> = (0..slots).flat_map(|_| record(random)).collect();
    if random.one_in(30) {
        bytes.truncate(random.between(0, bytes.len() as u64) as usize);
    }
    bytes
}

#[test]
fn the_hand_written_report_is_the_library_s() {
    let first = number_of("SHINGLEBAR_SEED", 1);
    let cases = number_of("SHINGLEBAR_CASES", 10_000);
    let (mut written, mut refused) = (0, 0);
    for seed in first..first + cases {
        let mut random = Random::new(seed);
        let table = table(&mut random);
        let (word, _) = call(shinglebar_report, &table, LONGEST);
        let length = word >> 8;
        for room in [length, length - 1, random.between(0, LONGEST), LONGEST] {
            let ours = call(shinglebar_report, &table, room);
            let theirs = call(baseline::report, &table, room);
            assert!(
                ours == theirs,
                "seed {seed}: {:#x} and {:#x}",
                ours.0,
                theirs.0
            );
            match ours.0 {
                16 => refused += 1,
                _ => written += 1,
            }
        }
    }
    assert!(
        written > cases && refused > cases,
        "{written} and {refused}"
    );
}
