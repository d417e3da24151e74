//! Seeds, numbers of cases, and the count of answers reached.

use crate::random::Random;
use std::collections::BTreeMap;
use std::io::Write;
use std::time::{SystemTime, UNIX_EPOCH};

/// The number of cases of each call if `SHINGLEBAR_CASES` does not say another.
const DEFAULT_CASES: u64 = 20_000;

/// A call's refusals and kinds, by the low byte of its word. All that it can give, no others.
pub type Answers = &'static [(u8, &'static str)];

pub const LOOKUP: Answers = &[(2, "refusal 2: table length"), (64, "found"), (65, "none")];

pub const AGE: Answers = &[(2, "refusal 2: table length"), (64, "done")];

pub const SPOILT: Answers = &[(2, "refusal 2: table length"), (64, "slot"), (65, "none")];

pub const WIDEN: Answers = &[
    (2, "refusal 2: the older table's length"),
    (16, "refusal 16: output area"),
    (64, "written"),
];

pub const REPORT: Answers = &[(16, "refusal 16: output area"), (64, "written")];

pub const HELLO: Answers = &[
    (16, "refusal 16: area"),
    (25, "refusal 25: corrupt"),
    (26, "refusal 26: parameters missing"),
    (64, "written"),
];

pub const FREE_SLOT: Answers = &[(2, "refusal 2: table length"), (64, "slot"), (65, "none")];

pub const FLUSH: Answers = &[
    (2, "refusal 2: table length"),
    (15, "refusal 15: flush payload corrupt"),
    (67, "flushed"),
];

pub const PORTION: Answers = &[
    (2, "refusal 2: table length"),
    (15, "refusal 15: flush payload corrupt"),
    (24, "refusal 24: k or slot"),
    (64, "portion done"),
];

pub const WHY: Answers = &[
    (2, "refusal 2: table length"),
    (15, "refusal 15: flush payload corrupt"),
    (24, "refusal 24: slot"),
    (64, "free"),
    (65, "spoilt"),
    (66, "configured"),
    (67, "nickname not meant"),
    (68, "label not meant"),
    (69, "MAC not meant"),
    (70, "cleared"),
];

pub const RECEIVE: Answers = &[
    (1, "refusal 1: settings"),
    (2, "refusal 2: table length"),
    (3, "refusal 3: frame length"),
    (4, "refusal 4: 22F3 not at its place"),
    (5, "refusal 5: not for this port"),
    (6, "refusal 6: cut"),
    (7, "refusal 7: V"),
    (8, "refusal 8: Hop Count"),
    (9, "refusal 9: nickname"),
    (10, "refusal 10: label"),
    (11, "refusal 11: group source"),
    (12, "refusal 12: M"),
    (13, "refusal 13: reserved destination"),
    (14, "refusal 14: channel"),
    (15, "refusal 15: flush payload corrupt"),
    (16, "refusal 16: output area"),
    (64, "onward"),
    (65, "delivered"),
    (66, "other channel"),
    (67, "flushed"),
];

pub const RECEIVE_PORT: Answers = &[
    (1, "refusal 1: settings"),
    (2, "refusal 2: table length"),
    (3, "refusal 3: frame length"),
    (4, "refusal 4: 22F3 not at its place"),
    (5, "refusal 5: not for this port"),
    (6, "refusal 6: cut"),
    (7, "refusal 7: V"),
    (8, "refusal 8: Hop Count"),
    (9, "refusal 9: nickname"),
    (10, "refusal 10: label"),
    (11, "refusal 11: group source"),
    (12, "refusal 12: M"),
    (13, "refusal 13: reserved destination"),
    (14, "refusal 14: channel"),
    (15, "refusal 15: flush payload corrupt"),
    (16, "refusal 16: output area"),
    (21, "refusal 21: map"),
    (22, "refusal 22: no pair found"),
    (64, "onward"),
    (65, "delivered"),
    (66, "other channel"),
    (67, "flushed"),
];

pub const INGRESS: Answers = &[
    (1, "refusal 1: settings"),
    (3, "refusal 3: frame length"),
    (6, "refusal 6: cut"),
    (8, "refusal 8: Hop Count"),
    (9, "refusal 9: nickname"),
    (10, "refusal 10: label"),
    (11, "refusal 11: group source"),
    (12, "refusal 12: M"),
    (16, "refusal 16: output area"),
    (21, "refusal 21: map"),
    (22, "refusal 22: no pair found"),
    (64, "written"),
];

pub const COMPACT: Answers = &[
    (1, "refusal 1: settings"),
    (3, "refusal 3: frame length"),
    (4, "refusal 4: 22F3 not at its place"),
    (5, "refusal 5: not for this port"),
    (6, "refusal 6: cut"),
    (7, "refusal 7: V"),
    (10, "refusal 10: label"),
    (12, "refusal 12: M"),
    (16, "refusal 16: output area"),
    (17, "refusal 17: may not be compacted"),
    (64, "written"),
];

pub const EXPAND: Answers = &[
    (1, "refusal 1: settings"),
    (3, "refusal 3: frame length"),
    (4, "refusal 4: 22F3 not at its place"),
    (5, "refusal 5: not for this port"),
    (6, "refusal 6: cut"),
    (7, "refusal 7: V"),
    (10, "refusal 10: label"),
    (16, "refusal 16: output area"),
    (18, "refusal 18: a General frame"),
    (64, "written"),
];

pub const SEND: Answers = &[
    (1, "refusal 1: settings"),
    (3, "refusal 3: frame length"),
    (4, "refusal 4: 22F3 not at its place"),
    (5, "refusal 5: not for this port"),
    (6, "refusal 6: cut"),
    (7, "refusal 7: V"),
    (10, "refusal 10: label"),
    (12, "refusal 12: M"),
    (16, "refusal 16: output area"),
    (17, "refusal 17: may not be compacted"),
    (64, "compacted"),
    (65, "the frame itself"),
];

pub const WRITE: Answers = &[
    (16, "refusal 16: output area"),
    (23, "refusal 23: lists"),
    (64, "written"),
];

/// Counts the answers of a call, and situations by name.
pub struct Tally {
    words: [u64; 256],
    situations: BTreeMap<&'static str, u64>,
}

impl Tally {
    fn new() -> Tally {
        Tally {
            words: [0; 256],
            situations: BTreeMap::new(),
        }
    }

    pub fn word(&mut self, word: u64) {
        self.words[usize::from(word as u8)] += 1;
    }

    pub fn situation(&mut self, name: &'static str) {
        *self.situations.entry(name).or_insert(0) += 1;
    }
}

/// Prints the case in which a test failed.
struct Announce {
    name: &'static str,
    seed: u64,
    case: u64,
}

impl Drop for Announce {
    fn drop(&mut self) {
        if std::thread::panicking() {
            say(&format!(
                "{}: failed with SHINGLEBAR_SEED={} SHINGLEBAR_CASE={}\n",
                self.name, self.seed, self.case
            ));
        }
    }
}

/// Writes past the capture of the test runner, so that seeds and counts are always seen.
fn say(text: &str) {
    let _ = std::io::stderr().write_all(text.as_bytes());
}

fn from_environment(name: &str) -> Option<u64> {
    let text = std::env::var(name).ok()?;
    match text.trim().parse() {
        Ok(number) => Some(number),
        Err(_) => panic!("{name} is not a number: {text}"),
    }
}

/// The only case to run, where one is given.
pub fn only() -> Option<u64> {
    from_environment("SHINGLEBAR_CASE")
}

/// The seed given, or one of the time.
fn seed() -> u64 {
    given_seed().unwrap_or_else(|| {
        let time = SystemTime::now().duration_since(UNIX_EPOCH);
        let nanoseconds = time.map_or(0, |time| time.as_nanos() as u64);
        Random::new(nanoseconds).number()
    })
}

fn given_seed() -> Option<u64> {
    from_environment("SHINGLEBAR_SEED")
}

/// The random numbers of a test that has no cases to count.
pub fn random(name: &str) -> Random {
    let seed = seed();
    say(&format!("{name}: seed {seed}\n"));
    Random::new(seed)
}

/// Runs the cases of a test, each with its own random numbers. Then prints the counts, and fails if
/// an answer that the call can give, or a situation wanted, was not reached, or if one was reached
/// that the call cannot give.
///
/// The test runs one case for each `share` of the number of cases asked for.
pub fn cases(
    name: &'static str,
    share: u64,
    answers: Answers,
    situations: &[&'static str],
    case: impl FnMut(&mut Random, &mut Tally),
) {
    cases_from(seed(), name, share, answers, situations, case);
}

/// The same with a seed of the test's own, unless another is given.
pub fn cases_of_seed(
    seed: u64,
    name: &'static str,
    share: u64,
    answers: Answers,
    situations: &[&'static str],
    case: impl FnMut(&mut Random, &mut Tally),
) {
    let seed = given_seed().unwrap_or(seed);
    cases_from(seed, name, share, answers, situations, case);
}

fn cases_from(
    seed: u64,
    name: &'static str,
    share: u64,
    answers: Answers,
    situations: &[&'static str],
    mut case: impl FnMut(&mut Random, &mut Tally),
) {
    let asked = from_environment("SHINGLEBAR_CASES").unwrap_or(DEFAULT_CASES);
    let count = (asked / share).max(1);
    let only = only();
    say(&format!("{name}: seed {seed}, {count} cases\n"));

    let mut tally = Tally::new();
    let numbers = match only {
        Some(number) => number..number.saturating_add(1),
        None => 0..count,
    };
    for number in numbers {
        let _announce = Announce {
            name,
            seed,
            case: number,
        };
        case(&mut Random::for_case(seed, number), &mut tally);
    }
    say(&report(name, answers, &tally));
    if only.is_none() {
        check(name, answers, situations, &tally);
    }
}

fn report(name: &str, answers: Answers, tally: &Tally) -> String {
    let calls: u64 = tally.words.iter().sum();
    let mut text = match answers {
        [] => format!("{name}:\n"),
        _ => format!("{name}: {calls} calls\n"),
    };
    for (low_byte, meaning) in answers {
        let count = tally.words[usize::from(*low_byte)];
        text.push_str(&format!("{count:>12}  {low_byte:>2} {meaning}\n"));
    }
    for (situation, count) in &tally.situations {
        text.push_str(&format!("{count:>12}     {situation}\n"));
    }
    text
}

fn check(name: &str, answers: Answers, situations: &[&'static str], tally: &Tally) {
    for (low_byte, meaning) in answers {
        let count = tally.words[usize::from(*low_byte)];
        assert!(count > 0, "{name}: never reached {low_byte} {meaning}");
    }
    for situation in situations {
        let count = tally.situations.get(situation).copied().unwrap_or(0);
        assert!(count > 0, "{name}: never reached: {situation}");
    }
    for (low_byte, count) in tally.words.iter().enumerate() {
        let listed = answers
            .iter()
            .any(|(known, _)| usize::from(*known) == low_byte);
        assert!(
            listed || *count == 0,
            "{name}: reached {low_byte}, which the call cannot give"
        );
    }
}
