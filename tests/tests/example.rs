//! The example examples/port.c, compiled and run as the README says.

use std::fs;
use std::path::{Path, PathBuf};

use shinglebar_tests::c_program;

fn root() -> PathBuf {
    let package = Path::new(env!("CARGO_MANIFEST_DIR"));
    package.parent().expect("the repository").to_path_buf()
}

fn text(file: &str) -> String {
    fs::read_to_string(root().join(file)).unwrap_or_else(|error| panic!("{file}: {error}"))
}

const GENERAL: &str =
    "0200000000A1 0200000000B2 22F3 0005 0102 1234 02000000000D 020000000001 8100000A 0800 4500";
const DELIVERED: &str = "delivered to VLAN 10: 02 00 00 00 00 0D 02 00 00 00 00 01 08 00 45 00";

#[test]
fn the_example_is_a_port() {
    let program = Path::new(env!("CARGO_TARGET_TMPDIR")).join("port");
    let include = format!("-I{}", root().join("include").display());
    c_program::compile_example(
        &program,
        &[include],
        &[env!("SHINGLEBAR_ARCHIVE").to_owned()],
    );
    let channel =
        "0180C2000040 0200000000B2 22F3 0805 0103 5678 0180C2000042 020000000002 81000001 8946";
    let cases = [
        (GENERAL.to_owned(), DELIVERED),
        // the same frame compacted; marks and lower case are taken too
        (
            "02-00-00-00-00-0d 02:00:00:00:00:01 8100000A 22F3 0005 0102 1234 0800 4500".to_owned(),
            DELIVERED,
        ),
        (
            GENERAL.replace("8100000A", "893B0123893B0456"),
            "delivered to FGL 1193046: 02 00 00 00 00 0D 02 00 00 00 00 01 08 00 45 00",
        ),
        (GENERAL.replace("0102 1234", "0999 1234"), "onward"),
        (format!("{channel} 0001 0000"), "other channel"),
        (
            format!("{channel} 0009 0000 01 1234 00 01 04 000A"),
            "refused 15: flush payload corrupt",
        ),
        // VLAN 10 is learned, and the fine-grained label is not meant
        (
            format!("{channel} 0009 0000 01 1234 00 01 04 000A 000A"),
            "flushed, 1 cleared",
        ),
        (
            format!("{channel} 0009 0000 01 1234 00 01 04 000A 000A"),
            "flushed, 0 cleared",
        ),
        (
            String::new(),
            "refused 3: frame (or expanded result) outside 14 to 9,216 bytes",
        ),
        (
            format!("{GENERAL}{}", "00".repeat(9216 - 40)),
            "delivered to VLAN 10: 02 00 00 00 00 0D 02 00 00 00 00 01 08 00 45 00",
        ),
        (
            format!("{GENERAL}{}", "00".repeat(9217 - 40)),
            "refused 3: frame (or expanded result) outside 14 to 9,216 bytes",
        ),
        // the last line may lack its end
        (GENERAL.to_owned(), DELIVERED),
    ];
    let input: Vec<&str> = cases.iter().map(|(frame, _)| frame.as_str()).collect();
    let printed = c_program::run_on(&program, &input.join("\n"));
    let lines: Vec<&str> = printed.lines().collect();
    assert_eq!(lines.len(), cases.len());
    for (line, (frame, wanted)) in lines.iter().zip(&cases) {
        assert!(
            line.trim_end_matches(" 00") == wanted.trim_end_matches(" 00"),
            "{frame}: {line}"
        );
    }
}

#[test]
fn the_readme_links_and_runs_the_example() {
    let readme = text("README.md");
    let lines: Vec<&str> = readme.lines().map(str::trim).collect();
    let compile = "cc -Iinclude examples/port.c target/staticlib/libshinglebar.a -o port";
    assert!(lines.contains(&compile));
    assert!(text("examples/port.c").contains(compile));
    assert!(lines.contains(&format!("echo {GENERAL} | ./port").as_str()));
    assert!(lines.contains(&DELIVERED));
}
