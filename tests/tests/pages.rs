//! Every call compared with its areas against memory that cannot be accessed, on one side and then on
//! the other; what a call may only read cannot be written. An access outside the areas, reads included,
//! ends the run by SIGSEGV.

use std::os::unix::process::ExitStatusExt;
use std::process::{Command, ExitStatus};

use shinglebar_tests::compare;
use shinglebar_tests::generate::{self, Pool};
use shinglebar_tests::hellos;
use shinglebar_tests::maps;
use shinglebar_tests::pages::{Access, Pages};
use shinglebar_tests::random::Random;
use shinglebar_tests::reference::{reported, Contents, Settings, OLD_RECORD, RECORD};
use shinglebar_tests::run;

/// Each case makes many calls: one for each side, and for each length at which the frame or payload is
/// cut.
const SHARE: u64 = 8;

/// The bytes, the bytes with one byte changed, and now and then the bytes cut at every length.
fn variants(random: &mut Random, bytes: Vec<u8>) -> Vec<Vec<u8>> {
    let mut changed = bytes.clone();
    generate::change_one_byte(random, &mut changed);
    let mut variants = vec![changed];
    if random.one_in(6) {
        for length in generate::cuts(random, bytes.len()) {
            variants.push(bytes[..length].to_vec());
        }
    }
    variants.push(bytes);
    variants
}

/// A table that is quickly copied, now and then a long one.
fn table(random: &mut Random, pool: &Pool) -> Vec<u8> {
    let mut table = generate::table(random, pool);
    while table.len() > 40 * RECORD && !random.one_in(50) {
        table = generate::table(random, pool);
    }
    table
}

/// A far port's settings, the variants of a frame to convert, and an output area for about as much as
/// the frame and `more` bytes.
fn conversion(
    random: &mut Random,
    pool: &Pool,
    compact: bool,
    more: isize,
) -> (Settings, Vec<Vec<u8>>, Vec<u8>) {
    let settings = generate::settings(random, pool);
    let mut frame = generate::frame(random, pool, &settings);
    if !random.one_in(10) {
        frame.compact = compact;
    }
    let bytes = frame.bytes();
    let length = generate::area_length(random, bytes.len().saturating_add_signed(more));
    let area = random.bytes(length);
    let bytes = generate::damage(random, bytes);
    (settings, variants(random, bytes), area)
}

#[test]
fn receive_touches_only_what_it_is_lent() {
    let mut both = Pages::both();
    run::cases(
        "receive_touches_only_what_it_is_lent",
        SHARE,
        run::RECEIVE,
        &[],
        |random, tally| {
            let pool = Pool::new(random);
            let settings = generate::settings(random, &pool);
            let frame = generate::frame(random, &pool, &settings);
            let length = generate::area_length(random, 12 + frame.content.len());
            let out = random.bytes(length);
            let table = table(random, &pool);
            let bytes = generate::damage(random, frame.bytes());
            for bytes in variants(random, bytes) {
                for pages in &mut both {
                    let (mut table, mut out) = (table.clone(), out.clone());
                    let word = compare::receive(pages, &settings, &bytes, &mut table, &mut out);
                    tally.word(word);
                }
            }
        },
    );
}

#[test]
fn receive_port_touches_only_what_it_is_lent() {
    let mut both = Pages::both();
    run::cases(
        "receive_port_touches_only_what_it_is_lent",
        SHARE,
        run::RECEIVE_PORT,
        &["delivered with a tag"],
        |random, tally| {
            let pool = Pool::new(random);
            let settings = maps::settings(random, &pool);
            let map = maps::map(random, &pool);
            let frame = generate::frame(random, &pool, &settings);
            let length = generate::area_length(random, 16 + frame.content.len());
            let out = random.bytes(length);
            let table = table(random, &pool);
            let bytes = generate::damage(random, frame.bytes());
            for bytes in variants(random, bytes) {
                for pages in &mut both {
                    let (mut table, mut out) = (table.clone(), out.clone());
                    let word =
                        compare::receive_port(pages, &settings, &map, &bytes, &mut table, &mut out);
                    tally.word(word);
                    if maps::is_tagged(&map, word) {
                        tally.situation("delivered with a tag");
                    }
                }
            }
        },
    );
}

#[test]
fn ingress_touches_only_what_it_is_lent() {
    let mut both = Pages::both();
    run::cases(
        "ingress_touches_only_what_it_is_lent",
        SHARE,
        run::INGRESS,
        &[],
        |random, tally| {
            let pool = Pool::new(random);
            let settings = generate::settings(random, &pool);
            let map = maps::map(random, &pool);
            let given = maps::encapsulation(random, &pool, &settings);
            let frame = maps::native(random, &pool, &map).bytes();
            let length = generate::area_length(random, frame.len() + 24);
            let out = random.bytes(length);
            let frame = generate::damage(random, frame);
            for frame in variants(random, frame) {
                for pages in &mut both {
                    let mut out = out.clone();
                    let word = compare::ingress(pages, &settings, &map, &given, &frame, &mut out);
                    tally.word(word);
                }
            }
        },
    );
}

#[test]
fn flush_touches_only_what_it_is_lent() {
    let mut both = Pages::both();
    run::cases(
        "flush_touches_only_what_it_is_lent",
        SHARE,
        run::FLUSH,
        &[],
        |random, tally| {
            let pool = Pool::new(random);
            let ingress = generate::ingress(random, &pool);
            let payload = generate::payload(random, &pool);
            let table = table(random, &pool);
            for payload in variants(random, payload) {
                for pages in &mut both {
                    let mut table = table.clone();
                    tally.word(compare::flush(pages, ingress, &payload, &mut table));
                }
            }
        },
    );
}

#[test]
fn compact_touches_only_what_it_is_lent() {
    let mut both = Pages::both();
    run::cases(
        "compact_touches_only_what_it_is_lent",
        SHARE,
        run::COMPACT,
        &[],
        |random, tally| {
            let pool = Pool::new(random);
            let (settings, frames, out) = conversion(random, &pool, false, -12);
            for frame in frames {
                for pages in &mut both {
                    let word = compare::compact(pages, &settings, &frame, &mut out.clone());
                    tally.word(word);
                }
            }
        },
    );
}

#[test]
fn expand_touches_only_what_it_is_lent() {
    let mut both = Pages::both();
    run::cases(
        "expand_touches_only_what_it_is_lent",
        SHARE,
        run::EXPAND,
        &[],
        |random, tally| {
            let pool = Pool::new(random);
            let (source, tagged, tag) = generate::outer(random, &pool);
            let longer = if tagged == 1 { 16 } else { 12 };
            let (settings, frames, out) = conversion(random, &pool, true, longer);
            for frame in frames {
                for pages in &mut both {
                    let mut out = out.clone();
                    let word =
                        compare::expand(pages, &settings, source, tagged, tag, &frame, &mut out);
                    tally.word(word);
                }
            }
        },
    );
}

#[test]
fn send_touches_only_what_it_is_lent() {
    let mut both = Pages::both();
    run::cases(
        "send_touches_only_what_it_is_lent",
        SHARE,
        run::SEND,
        &[],
        |random, tally| {
            let pool = Pool::new(random);
            let (settings, frames, work) = conversion(random, &pool, false, -12);
            let length = generate::working_length(random, work.len());
            let work = random.bytes(length);
            for frame in frames {
                for pages in &mut both {
                    let word = compare::send(pages, &settings, &frame, &mut work.clone());
                    tally.word(word);
                }
            }
        },
    );
}

/// Blocks of numbers of a width, now and then cut.
fn blocks(random: &mut Random, width: usize) -> Vec<u8> {
    let count = random.length(0, 70);
    let numbers = (0..count).flat_map(|_| {
        let start = random.between(1, 2000);
        [start, start + random.below(2000)]
    });
    let mut bytes: Vec<u8> = numbers
        .flat_map(|number| number.to_be_bytes()[8 - width..].to_vec())
        .collect();
    if random.one_in(10) {
        bytes.pop();
    }
    bytes
}

#[test]
fn write_flush_touches_only_what_it_is_lent() {
    let mut both = Pages::both();
    run::cases(
        "write_flush_touches_only_what_it_is_lent",
        SHARE,
        run::WRITE,
        &[],
        |random, tally| {
            let count = random.length(0, 8);
            let nicknames = random.bytes(2 * count);
            let (vlans, fine, macs) = (blocks(random, 2), blocks(random, 4), blocks(random, 8));
            let room = random.length(0, 2600);
            let out = random.bytes(room);
            for pages in &mut both {
                let word =
                    compare::write_flush(pages, &nicknames, &vlans, &fine, &macs, &mut out.clone());
                tally.word(word);
            }
        },
    );
}

#[test]
fn why_touches_only_what_it_is_lent() {
    let mut both = Pages::both();
    run::cases(
        "why_touches_only_what_it_is_lent",
        2 * SHARE,
        run::WHY,
        &[],
        |random, tally| {
            let pool = Pool::new(random);
            let ingress = generate::ingress(random, &pool);
            let table = table(random, &pool);
            let payload = generate::payload(random, &pool);
            for payload in variants(random, payload) {
                let (slot, _) = generate::portion(random, table.len());
                for pages in &mut both {
                    tally.word(compare::why(pages, ingress, &payload, slot, &table));
                }
            }
        },
    );
}

#[test]
fn calls_on_the_table_alone_touch_only_what_they_are_lent() {
    let mut both = Pages::both();
    run::cases(
        "calls_on_the_table_alone_touch_only_what_they_are_lent",
        4,
        run::LOOKUP,
        &[],
        |random, tally| {
            let pool = Pool::new(random);
            let table = generate::table(random, &pool);
            let (kind, label, mac) = generate::key(random, &pool, &table);
            let seconds = generate::seconds(random, &table);
            for pages in &mut both {
                tally.word(compare::lookup(pages, kind, label, mac, &table));
                tally.word(compare::age(pages, seconds, &mut table.clone()));
                tally.word(compare::spoilt(pages, &table));
                tally.word(compare::free_slot(pages, &table));
            }
        },
    );
}

#[test]
fn widen_touches_only_what_it_is_lent() {
    let mut both = Pages::both();
    run::cases(
        "widen_touches_only_what_it_is_lent",
        4,
        run::WIDEN,
        &[],
        |random, tally| {
            let old = generate::older_table(random);
            let length = generate::area_length(random, old.len() / OLD_RECORD * RECORD);
            let out = random.bytes(length);
            for pages in &mut both {
                tally.word(compare::widen(pages, &old, &mut out.clone()));
            }
        },
    );
}

#[test]
fn report_touches_only_what_it_is_lent() {
    let mut both = Pages::both();
    run::cases(
        "report_touches_only_what_it_is_lent",
        8,
        run::REPORT,
        &[],
        |random, tally| {
            let mut table = generate::crowd(random);
            while table.len() > 60 * RECORD && !random.one_in(50) {
                table = generate::crowd(random);
            }
            let length = generate::area_length(random, reported(&table).len());
            let out = random.bytes(length);
            for pages in &mut both {
                tally.word(compare::report(pages, &table, &mut out.clone()));
            }
        },
    );
}

#[test]
fn hello_read_touches_only_what_it_is_lent() {
    let mut both = Pages::both();
    run::cases(
        "hello_read_touches_only_what_it_is_lent",
        3 * SHARE,
        run::HELLO,
        &[],
        |random, tally| {
            let (payload, _) = hellos::payload(random);
            for payload in variants(random, payload) {
                let result = Contents::read(&payload).map_or(0, |found| found.area().len());
                let length = generate::area_length(random, result);
                let area = random.bytes(length);
                for pages in &mut both {
                    tally.word(compare::hello_read(pages, &payload, &mut area.clone()));
                }
            }
        },
    );
}

#[test]
fn hello_write_touches_only_what_it_is_lent() {
    let mut both = Pages::both();
    run::cases(
        "hello_write_touches_only_what_it_is_lent",
        3 * SHARE,
        run::HELLO,
        &[],
        |random, tally| {
            let mut contents = hellos::contents(random);
            if random.one_in(20) {
                contents.parameters = None;
            }
            for numbers in variants(random, contents.area()) {
                let written = Contents::of_area(&numbers).and_then(|found| found.write());
                let length = generate::area_length(random, written.map_or(0, |out| out.len()));
                let out = random.bytes(length);
                for pages in &mut both {
                    tally.word(compare::hello_write(pages, &numbers, &mut out.clone()));
                }
            }
        },
    );
}

/// How a program ends that makes an access.
fn end_of(access: Access) -> ExitStatus {
    Command::new(env!("CARGO_BIN_EXE_access"))
        .arg(format!("{access:?}"))
        .output()
        .expect("the program runs")
        .status
}

#[test]
fn an_access_outside_the_areas_ends_the_run() {
    const SIGSEGV: i32 = 11;
    for access in Access::ALL {
        let end = end_of(access);
        match access {
            Access::AllThatIsLent => assert!(end.success(), "{access:?}: {end}"),
            _ => assert_eq!(end.signal(), Some(SIGSEGV), "{access:?}: {end}"),
        }
    }
}
