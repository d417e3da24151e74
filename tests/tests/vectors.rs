//! The files of the program `replay`: they are what the second implementation makes, and hold every
//! answer of every call. `rt ci` runs the program on them.

use std::collections::BTreeSet;
use std::fs;
use std::path::Path;

use shinglebar_tests::{vectors, watched};

fn file(name: &str) -> String {
    let path = Path::new(env!("CARGO_MANIFEST_DIR"))
        .join("../crates/replay")
        .join(name);
    fs::read_to_string(&path).unwrap_or_else(|error| panic!("{}: {error}", path.display()))
}

#[test]
fn the_files_are_what_the_second_implementation_makes() {
    let (input, output) = vectors::files();
    assert!(
        input == file("stdin"),
        "crates/replay/stdin: run `make vectors`"
    );
    assert!(
        output == file("stdout"),
        "crates/replay/stdout: run `make vectors`"
    );
}

#[test]
fn every_answer_of_every_call_occurs() {
    let (input, output) = (file("stdin"), file("stdout"));
    let number = |line: &str| u8::from_str_radix(&line[..2], 16).expect("a call's number");
    let calls: Vec<u8> = input
        .lines()
        .map(number)
        .filter(|call| *call != vectors::TABLE)
        .collect();
    let answers: Vec<u8> = output
        .lines()
        .map(|line| u64::from_str_radix(&line[..16], 16).expect("a word") as u8)
        .collect();
    assert_eq!(calls.len(), answers.len());
    let found: BTreeSet<(u8, u8)> = calls.into_iter().zip(answers).collect();
    let wanted: BTreeSet<(u8, u8)> = vectors::ANSWERS
        .iter()
        .chain(watched::ANSWERS)
        .flat_map(|(call, answers)| answers.iter().map(|(answer, _)| (*call, *answer)))
        .collect();
    assert_eq!(found, wanted);
}
