//! The header used from C and from C++: the wrappers of lookup, age and spoilt, the decoders, records,
//! refusal strings and the stack that a call takes; and what it says of the archive.

use shinglebar::Refusal;
use shinglebar_tests::c_program;
use std::fs;
use std::path::Path;
use std::process::Command;

/// A file of the repository.
fn text(name: &str) -> String {
    let file = Path::new(env!("CARGO_MANIFEST_DIR")).join("..").join(name);
    fs::read_to_string(file).unwrap_or_else(|error| panic!("{name}: {error}"))
}

/// Runs a program that build.rs compiled.
fn run(program: &str) {
    c_program::run(&Path::new(env!("OUT_DIR")).join(program));
}

#[test]
fn the_header_passes_null_areas_from_c() {
    run("null_c");
}

#[test]
fn the_header_passes_null_areas_from_optimised_c() {
    run("null_c_optimised");
}

#[test]
fn the_header_without_the_other_calls_emits_none_of_them() {
    run("null_c_table_only");
}

#[test]
fn the_header_passes_null_areas_from_cpp() {
    run("null_cpp");
}

#[test]
fn the_header_passes_null_areas_from_optimised_cpp() {
    run("null_cpp_optimised");
}

#[test]
fn records_are_packed_and_unpacked_as_the_library_does() {
    c_program::compile_and_run("record.c");
}

#[test]
fn the_refusal_strings_are_the_words_of_the_rust_package_and_of_the_readme() {
    let mut wanted = String::new();
    for number in 0..40 {
        match Refusal::from_number(number) {
            Some(refusal) => wanted += &format!("{number} {refusal}\n"),
            None => wanted += &format!("{number} no refusal\n"),
        }
    }
    wanted += "onward no refusal\nwide no refusal\n";
    for printed in c_program::compile_and_run("strings.c") {
        assert_eq!(printed, wanted);
    }
    let readme = text("README.md");
    for refusal in Refusal::ALL {
        let row = format!("| {} | {refusal} |", refusal.number());
        assert!(readme.lines().any(|line| line == row), "no row `{row}`");
    }
}

#[test]
fn no_call_takes_more_stack_than_the_header_says() {
    for printed in c_program::compile_and_run("stack.c") {
        eprint!("{printed}");
    }
    let header = text("include/shinglebar.h");
    let most = header
        .lines()
        .find_map(|line| line.strip_prefix("#define SHINGLEBAR_STACK_MAX "))
        .and_then(|most| most.parse::<usize>().ok())
        .expect("the bytes");
    let words = format!("at most {} KiB of stack", most.div_ceil(1024));
    assert!(text("README.md").contains(&words), "`{words}`");
}

/// "The archive has no state of its own", and calls "no C function but `memcpy`, `memmove` and `memset`".
#[test]
fn the_archive_has_no_data_and_asks_for_memcpy_memmove_and_memset_alone() {
    let output = Command::new("nm")
        .args(["--format=posix", env!("SHINGLEBAR_ARCHIVE")])
        .output()
        .expect("nm");
    assert!(output.status.success());
    let listed = String::from_utf8(output.stdout).expect("UTF-8");
    let mut asked = Vec::new();
    let mut offered = Vec::new();
    for line in listed.lines().filter(|line| !line.ends_with(':')) {
        let mut words = line.split_whitespace();
        let (name, kind) = (words.next().expect("a name"), words.next().expect("a type"));
        match kind {
            "U" => asked.push(name),
            "T" => offered.push(name),
            // code, and data that is only read
            "t" | "r" => {}
            _ => panic!("{line}"),
        }
    }
    asked.sort();
    assert_eq!(asked, ["memcpy", "memmove", "memset"]);
    assert!(offered.contains(&"shinglebar_receive"), "{offered:?}");
    assert!(
        offered.iter().all(|name| name.starts_with("shinglebar_")),
        "{offered:?}"
    );
}

/// The compiler touches each page of a large stack frame in a loop that counts in r11. Where it puts that
/// loop after code of the function, a value that this code left in r11 is lost: such an archive is wrong
/// although its source is proved.
#[test]
fn no_value_is_lost_where_a_large_frame_is_made() {
    let output = Command::new("objdump")
        .args(["-d", "--no-show-raw-insn", env!("SHINGLEBAR_ARCHIVE")])
        .output()
        .expect("objdump");
    assert!(output.status.success());
    let listed = String::from_utf8(output.stdout).expect("UTF-8");
    let mut frames = 0;
    for function in listed.split("\n\n") {
        let Some((before, _)) = function.split_once("mov    %rsp,%r11") else {
            continue;
        };
        frames += 1;
        assert!(!before.contains("%r11"), "r11 is in use before: {before}");
    }
    assert!(frames > 0, "no frame is made in such a loop");
}
