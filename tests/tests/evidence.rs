//! The evidence itself: every theorem of every crate is named by `promises::claims`, and what docs/TRACE.md
//! names is there.

use std::collections::BTreeSet;
use std::fs;
use std::path::{Path, PathBuf};

fn root() -> PathBuf {
    let package = Path::new(env!("CARGO_MANIFEST_DIR"));
    package.parent().expect("the repository").to_path_buf()
}

fn read(path: &str) -> String {
    fs::read_to_string(root().join(path)).unwrap_or_else(|error| panic!("{path}: {error}"))
}

/// The crates that crates.txt lists: `NAME: LIBRARY ..`, or `NAME staticlib: LIBRARY ..`.
fn crates() -> Vec<String> {
    let listed = read("crates.txt");
    let lines = listed.lines().filter(|line| !line.starts_with('#'));
    let names = lines.filter_map(|line| line.split_once(':'));
    let names = names.filter_map(|(name, _)| name.split(' ').next());
    names.map(str::to_string).collect()
}

/// The code of a crate: its src/*.rt in one.
fn code(name: &str) -> String {
    let folder = root().join(format!("crates/{name}/src"));
    let mut files: Vec<_> = fs::read_dir(&folder)
        .unwrap_or_else(|error| panic!("{name}: {error}"))
        .map(|entry| entry.expect("an entry").path())
        .collect();
    files.sort();
    let text = |path: &PathBuf| fs::read_to_string(path).expect("a file of code");
    files.iter().map(text).collect()
}

/// The theorems that the `claims()` of a crate ensures: what stands in the braces of its clauses, one `×` after another.
fn claimed(name: &str) -> BTreeSet<String> {
    let code = code(name);
    let Some((_, claims)) = code.split_once("pub fn claims()") else {
        return BTreeSet::new();
    };
    let contract = claims.split("\n{").next().expect("a contract");
    let facts = contract.split('{').skip(1);
    let facts = facts.map(|fact| fact.split('}').next().expect("its end"));
    facts
        .flat_map(|fact| fact.split('×'))
        .map(|theorem| theorem.trim().to_string())
        .collect()
}

#[test]
fn promises_name_every_theorem_of_every_crate() {
    let promised = claimed("promises");
    let mut below = BTreeSet::new();
    for name in crates().iter().filter(|name| *name != "promises") {
        for theorem in claimed(name) {
            assert!(
                promised.contains(&theorem),
                "{name}: {theorem} is not promised"
            );
            below.insert(theorem);
        }
    }
    assert!(below.len() > 20, "{below:?}");
    assert!(promised.len() > below.len(), "{promised:?}");
}

#[test]
fn every_crate_has_a_function_or_a_claim() {
    for name in crates() {
        assert!(code(&name).contains("fn "), "{name} has no function");
    }
}

/// The cells of TRACE.md's tables.
fn cells(document: &str) -> impl Iterator<Item = &str> {
    let rows = document.lines().filter(|line| line.starts_with("| "));
    rows.flat_map(|row| row.split(" | "))
}

fn spans(text: &str) -> impl Iterator<Item = &str> {
    text.split('`').skip(1).step_by(2)
}

#[test]
fn the_functions_that_the_trace_names_are_there() {
    let document = read("docs/TRACE.md");
    let named = cells(&document).flat_map(spans);
    let named: Vec<_> = named
        .filter(|span| span.starts_with(char::is_lowercase))
        .filter_map(|span| span.split_once("::"))
        .collect();
    assert!(named.len() > 100, "{}", named.len());
    let there = |name: &str, function: &str| {
        root().join(format!("crates/{name}/src")).is_dir()
            && ["(", "<"]
                .iter()
                .any(|next| code(name).contains(&format!("fn {function}{next}")))
    };
    let missing: Vec<_> = named
        .iter()
        .filter(|(name, function)| !there(name, function))
        .collect();
    assert!(missing.is_empty(), "no functions: {missing:?}");
}

/// The crate, the file and the name of a definition that is written as crate/File.name.
fn definition(span: &str) -> Option<(&str, &str, &str)> {
    let (name, place) = span.split_once('/')?;
    let (file, definition) = place.split_once('.')?;
    file.starts_with(char::is_uppercase)
        .then_some((name, file, definition))
}

fn is_defined(&(name, file, definition): &(&str, &str, &str)) -> bool {
    let path = root().join(format!("crates/{name}/specs/{file}.antt"));
    let text = fs::read_to_string(path).unwrap_or_default();
    let declares = |line: &str| {
        let declared = line.split_once("pub ").map_or("", |(_, declared)| declared);
        let declared = declared
            .trim_start_matches("record ")
            .trim_start_matches("data ");
        let end = declared.find([' ', ':']).unwrap_or(declared.len());
        &declared[..end] == definition
    };
    text.lines().any(declares)
}

#[test]
fn the_definitions_that_the_trace_names_are_there() {
    let document = read("docs/TRACE.md");
    let named: Vec<_> = cells(&document)
        .flat_map(spans)
        .filter_map(definition)
        .collect();
    assert!(named.len() > 100, "{}", named.len());
    let missing: Vec<_> = named.iter().filter(|named| !is_defined(named)).collect();
    assert!(missing.is_empty(), "not defined: {missing:?}");
}

/// The wrong programs of a crate, each with the functions that it changes where its edit names them: an edit has one program, its own
/// name, or several, each with a line `wrong: PROGRAM FUNCTION..`.
fn wrong_programs(name: &str) -> Vec<(String, Vec<String>)> {
    let Ok(folder) = fs::read_dir(root().join(format!("crates/{name}/must-fail"))) else {
        return Vec::new();
    };
    let mut programs = Vec::new();
    for path in folder.map(|entry| entry.expect("an entry").path()) {
        let text = fs::read_to_string(&path).expect("an edit");
        let lines = text.lines().filter_map(|line| line.strip_prefix("wrong: "));
        let mut words = lines.map(|line| line.split(' ').map(str::to_string));
        let before = programs.len();
        programs.extend(words.by_ref().map(|mut words| {
            let program = words.next().expect("a program");
            (program, words.collect())
        }));
        if programs.len() == before {
            let edit = path.file_stem().and_then(|stem| stem.to_str());
            programs.push((edit.expect("a name").to_string(), Vec::new()));
        }
    }
    programs
}

#[test]
fn every_wrong_program_has_a_name_and_functions_of_its_own() {
    for name in crates() {
        let programs = wrong_programs(&name);
        let names: BTreeSet<_> = programs.iter().map(|(program, _)| program).collect();
        assert_eq!(
            names.len(),
            programs.len(),
            "{name}: a name stands twice: {programs:?}"
        );
        let code = code(&name);
        for (program, functions) in &programs {
            for function in functions {
                let function = function.rsplit("::").next().expect("a function");
                assert!(
                    ["(", "<"]
                        .iter()
                        .any(|next| code.contains(&format!("fn {function}{next}"))),
                    "{name}/{program}: no function {function}"
                );
            }
        }
    }
}

#[test]
fn the_wrong_programs_that_the_trace_names_are_there() {
    let document = read("docs/TRACE.md");
    let crates: BTreeSet<String> = crates().into_iter().collect();
    let mut named = BTreeSet::new();
    for cell in cells(&document) {
        let plain = cell.split('`').step_by(2).collect::<String>();
        let words = plain.split([',', ' ', ';', '(', ')']);
        let edits = words.filter_map(|word| word.split_once('/'));
        let edits = edits.filter(|(name, _)| crates.contains(*name));
        named.extend(edits.map(|(name, program)| (name.to_string(), program.to_string())));
    }
    assert!(named.len() > 100, "{}", named.len());
    let there = |(name, program): &&(String, String)| {
        let programs = wrong_programs(name);
        programs.iter().any(|(there, _)| there == program)
    };
    let missing: Vec<_> = named.iter().filter(|named| !there(named)).collect();
    assert!(missing.is_empty(), "no wrong programs: {missing:?}");
}
