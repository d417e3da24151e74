//! docs/FORMATS.md: the definitions that it names are there, its table of refusals has every number, and
//! its examples are what it says.

use std::collections::BTreeSet;
use std::fs;
use std::path::{Path, PathBuf};

use shinglebar::{
    CampusLabel, Compacted, Encapsulation, Flushed, Ingressed, Label, Learning, Mac, Pair,
    PortVlan, Received, Refusal, Settings, Spoilt,
};
use shinglebar_tests::reference::{self, Entry, Record, RECORD};

fn root() -> PathBuf {
    let package = Path::new(env!("CARGO_MANIFEST_DIR"));
    package.parent().expect("the repository").to_path_buf()
}

fn formats() -> String {
    fs::read_to_string(root().join("docs/FORMATS.md")).expect("docs/FORMATS.md")
}

/// What stands between backquotes and has the form crate/File or crate/File.name.
fn cited(document: &str) -> Vec<&str> {
    let spans = document.split('`').skip(1).step_by(2);
    spans
        .filter(|span| {
            let file = span.split_once('/').map(|(_, file)| file);
            file.is_some_and(|file| file.starts_with(char::is_uppercase))
        })
        .collect()
}

#[test]
fn every_definition_that_the_formats_name_is_there() {
    let document = formats();
    let cited = cited(&document);
    assert!(cited.len() > 100, "{}", cited.len());
    for citation in cited {
        let (crate_name, place) = citation.split_once('/').expect("a crate");
        let (file, name) = match place.split_once('.') {
            Some((file, name)) => (file, Some(name)),
            None => (place, None),
        };
        let path = root().join(format!("crates/{crate_name}/specs/{file}.antt"));
        let text = fs::read_to_string(&path).unwrap_or_else(|error| panic!("{citation}: {error}"));
        let defines = |name: &str| {
            text.lines().any(|line| {
                let declared = line.split_once("pub ").map_or("", |(_, declared)| declared);
                declared.starts_with(&format!("{name} : "))
            })
        };
        assert!(name.is_none_or(defines), "{citation} is not defined");
    }
}

/// The rows of a table with a numbered step, as their cells.
fn steps(document: &str) -> Vec<Vec<&str>> {
    let start = document
        .find("## The order of refusals")
        .expect("the section");
    let section = document[start..].split("\n## Answers").next().expect("it");
    let rows = section.lines().filter(|line| line.starts_with("| "));
    rows.skip(1)
        .map(|row| row.trim_matches('|').split('|').map(str::trim).collect())
        .collect()
}

/// The numbers of the tests of ingress.
fn ingress_numbers(document: &str) -> Vec<u8> {
    let start = document.find("## A port's map").expect("the section");
    let section = document[start..].split("\n## ").next().expect("it");
    let rows = section.lines().filter(|line| line.starts_with("| "));
    let cells = rows.map(|row| row.trim_matches('|').split('|').map(str::trim));
    cells
        .filter(|cells| cells.clone().count() == 2)
        .filter_map(|cells| cells.last()?.parse().ok())
        .collect()
}

#[test]
fn the_order_of_refusals_has_every_number_and_a_definition_in_each_row() {
    let document = formats();
    let mut numbers = BTreeSet::new();
    for (at, cells) in steps(&document).iter().enumerate() {
        let [step, _, refusals, calls, definition] = cells[..] else {
            panic!("{cells:?}")
        };
        assert_eq!(step, (at + 1).to_string());
        assert!(!cited(definition).is_empty(), "{cells:?}");
        assert!(calls.split(' ').all(|call| "RCSEFTW".contains(call)));
        for number in refusals.split(", ") {
            numbers.insert(number.parse::<u8>().expect("a number"));
        }
    }
    let ingress = ingress_numbers(&document);
    assert_eq!(ingress, [1, 21, 3, 10, 6, 10, 6, 11, 8, 9, 12, 22, 16]);
    numbers.extend(ingress);
    let later = "## The order in the calls of document 02";
    let (_, section) = document.split_once(later).expect("the section");
    let rows = section.lines().filter(|line| line.starts_with("| "));
    for row in rows.skip(1) {
        let cells: Vec<&str> = row.trim_matches('|').split('|').map(str::trim).collect();
        let [_, refusals, definition] = cells[..] else {
            panic!("{cells:?}")
        };
        assert!(!cited(definition).is_empty(), "{cells:?}");
        for number in refusals.split(", ") {
            numbers.insert(number.parse::<u8>().expect("a number"));
        }
    }
    let all: BTreeSet<u8> = Refusal::ALL.iter().map(|r| r.number()).collect();
    assert_eq!(numbers, all);
}

/// The lines of the examples: indented, with nothing but the digits of 14 bytes or more.
fn examples(document: &str) -> Vec<Vec<u8>> {
    let lines = document
        .lines()
        .filter_map(|line| line.strip_prefix("    "));
    let digits = lines.map(|line| line.split(' ').collect::<String>());
    digits
        .filter(|digits| digits.len() >= 28 && digits.chars().all(|c| c.is_ascii_hexdigit()))
        .map(|digits| {
            let bytes = digits.as_bytes().chunks(2);
            let byte = |pair| u8::from_str_radix(std::str::from_utf8(pair).expect("digits"), 16);
            bytes.map(|pair| byte(pair).expect("a byte")).collect()
        })
        .collect()
}

const PORT: Settings = Settings {
    port: Mac([0x02, 0, 0, 0, 0, 0xA1]),
    inner: Mac([0x02, 0, 0, 0, 0, 0xB1]),
    nickname: 0x0102,
    compact: true,
    confidence: 20,
    seconds: 300,
    multihomed: 0,
    smart: false,
};

#[test]
fn the_examples_of_the_formats_are_what_they_say() {
    let examples = examples(&formats());
    let [record, general, compact, native, tagged, fine, payload, flush] = &examples[..] else {
        panic!("{} examples", examples.len())
    };
    let entry = Entry {
        label: reference::Label::Vlan(10),
        mac: 0x0200_0000_0001,
        nickname: 0x1234,
        confidence: 20,
        seconds: 300,
        multihomed: false,
    };
    assert_eq!(reference::read(record), Record::Learned(entry));
    assert_eq!(shinglebar::spoilt(record), Ok(Spoilt::None));

    // both formats bring the native frame, and teach the record
    let mut written = [0; 28];
    let length = compact.len();
    assert_eq!(
        shinglebar::compact(&PORT, general, &mut written),
        Ok(Compacted { length })
    );
    assert_eq!(&written[..], &compact[..]);
    for frame in [general, compact] {
        let (mut table, mut out) = ([0; RECORD], [0; 16]);
        let delivered = Received::Delivered {
            length: 16,
            learning: Learning::Learned,
            label: Label::Vlan(10),
        };
        let outcome = shinglebar::receive(&PORT, frame, &mut table, &mut out);
        assert_eq!(outcome, Ok(delivered));
        assert_eq!(&out[..], &native[..]);
        assert_eq!(&table[..], &record[..]);
    }

    // ingress makes the fine-grained frame, and reading brings the tagged one back
    let map = [Pair::new(PortVlan(10), CampusLabel(0xAB_CDEF))];
    let given = Encapsulation {
        outer_destination: PORT.port,
        outer_source: Mac([0x02, 0, 0, 0, 0, 0xB2]),
        multicast: false,
        hop_count: 5,
        egress: 0x0102,
        ingress: 0x1234,
    };
    let mut written = [0; 44];
    let outcome = shinglebar::ingress(&PORT, &map, &given, tagged, &mut written);
    assert_eq!(outcome, Ok(Ingressed { length: 44 }));
    assert_eq!(&written[..], &fine[..]);
    let (mut table, mut out) = ([0; reference::RECORD], [0; 20]);
    let delivered = Received::Delivered {
        length: 20,
        learning: Learning::Learned,
        label: Label::Fine(0xAB_CDEF),
    };
    let outcome = shinglebar::receive_port(&PORT, &map, fine, &mut table, &mut out);
    assert_eq!(outcome, Ok(delivered));
    assert_eq!(&out[..], &tagged[..]);

    // the payload clears it, alone and in its frame
    let mut table = record.clone();
    let outcome = shinglebar::flush(0x5678, payload, &mut table);
    assert_eq!(outcome, Ok(Flushed { count: 1 }));
    assert_eq!(table, [0; RECORD]);
    let mut table = record.clone();
    let outcome = shinglebar::receive(&PORT, flush, &mut table, &mut []);
    assert_eq!(outcome, Ok(Received::Flushed { count: 1 }));
    assert_eq!(table, [0; RECORD]);
    assert!(flush.ends_with(payload));
}
