//! The fuzz target of fuzz/, without libFuzzer: it accepts its corpus, which has every answer of every
//! call, and ends on it where a call does something wrong.

use std::collections::BTreeMap;
use std::env;
use std::fs;
use std::os::unix::process::ExitStatusExt;
use std::path::{Path, PathBuf};
use std::process::{Command, Output};

use shinglebar_tests::corpus;
use shinglebar_tests::run::{self, Answers};

fn repository() -> PathBuf {
    Path::new(env!("CARGO_MANIFEST_DIR")).join("..")
}

/// The files of the corpus.
fn kept() -> BTreeMap<String, Vec<u8>> {
    let folder = fs::read_dir(repository().join("fuzz/corpus")).expect("fuzz/corpus");
    folder
        .map(|entry| {
            let path = entry.expect("a file").path();
            let name = path.file_name().expect("a name").to_string_lossy();
            (name.into_owned(), fs::read(&path).expect("a file"))
        })
        .collect()
}

/// Compiles with these arguments to a file of this name.
fn compile(name: &str, arguments: &[&str]) -> String {
    let made = Path::new(env!("OUT_DIR")).join(name);
    let output = Command::new("cc")
        .current_dir(repository())
        .args([
            "-std=c99",
            "-pedantic",
            "-O2",
            "-Wall",
            "-Wextra",
            "-Werror",
        ])
        .args(["-I", "include", "-o"])
        .arg(&made)
        .args(arguments)
        .output()
        .expect("cc can be run");
    assert!(
        output.status.success(),
        "{}",
        String::from_utf8_lossy(&output.stderr)
    );
    made.to_string_lossy().into_owned()
}

/// Runs the target on the corpus.
fn run_on_corpus(program: &str, fault: &str) -> Output {
    let corpus = repository().join("fuzz/corpus");
    Command::new(program)
        .current_dir(corpus)
        .args(kept().keys())
        .env("SHINGLEBAR_FAULT", fault)
        .output()
        .expect("the fuzz target runs")
}

#[test]
fn the_corpus_is_made_from_the_files_of_replay() {
    let read =
        |name: &str| fs::read_to_string(repository().join("crates/replay").join(name)).expect(name);
    let made = corpus::files(&read("stdin"), &read("stdout"));
    assert!(made == kept(), "fuzz/corpus: run `make vectors`");
}

#[test]
fn the_target_accepts_its_corpus_and_reaches_every_answer() {
    let archive = env!("SHINGLEBAR_ARCHIVE");
    let program = compile("fuzz_once", &["fuzz/boundary.c", "fuzz/main.c", archive]);
    let output = run_on_corpus(&program, "");
    let told = String::from_utf8_lossy(&output.stderr);
    assert!(output.status.success(), "{}\n{told}", output.status);
    let calls: [(&str, Answers); 13] = [
        ("send", run::SEND),
        ("receive", run::RECEIVE),
        ("flush", run::FLUSH),
        ("age", run::AGE),
        ("lookup", run::LOOKUP),
        ("spoilt", run::SPOILT),
        ("compact", run::COMPACT),
        ("expand", run::EXPAND),
        ("receive_port", run::RECEIVE_PORT),
        ("ingress", run::INGRESS),
        ("widen", run::WIDEN),
        ("write", run::WRITE),
        ("free_slot", run::FREE_SLOT),
    ];
    // A file for each answer, and each run twice.
    let mut expected = String::new();
    for (name, answers) in calls {
        expected += &format!("{name:<12}");
        for (answer, _) in answers {
            expected += &format!(" {answer}:2");
        }
        expected += "\n";
    }
    assert_eq!(told, expected);
}

#[test]
fn the_target_ends_where_a_call_does_something_wrong() {
    const SIGABRT: i32 = 6;
    const SIGSEGV: i32 = 11;
    let wrong = compile("wrong.o", &["-c", "tests/c/wrong.c"]);
    let archive = env!("SHINGLEBAR_ARCHIVE");
    let program = compile(
        "fuzz_wrong",
        &[
            "-Dshinglebar_receive=wrong_receive",
            "-Dshinglebar_ingress=wrong_ingress",
            "fuzz/boundary.c",
            "fuzz/main.c",
            &wrong,
            archive,
        ],
    );
    assert!(run_on_corpus(&program, "").status.success());
    for (fault, signal) in [
        ("a stray bit", SIGABRT),
        ("a stray bit in a refusal", SIGABRT),
        ("a refusal of other calls", SIGABRT),
        ("an unknown kind", SIGABRT),
        ("a refusal changes the table", SIGABRT),
        ("a refusal changes the output area", SIGABRT),
        ("onward changes the table", SIGABRT),
        ("a byte behind the native frame", SIGABRT),
        ("two records learned", SIGABRT),
        ("a flush counts one more", SIGABRT),
        ("a flush changes a record that stays", SIGABRT),
        ("a read behind the frame", SIGSEGV),
        ("a read before the frame", SIGSEGV),
        ("a read behind the table", SIGSEGV),
        ("a write before the output area", SIGSEGV),
        ("a write to the frame", SIGSEGV),
        ("ingress tells a byte less", SIGABRT),
        ("a map that is refused with 2", SIGABRT),
        ("a read behind the map", SIGSEGV),
        ("a write to the map", SIGSEGV),
    ] {
        let status = run_on_corpus(&program, fault).status;
        assert_eq!(status.signal(), Some(signal), "{fault}: {status}");
    }
}
