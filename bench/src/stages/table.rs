//! Lookup, ageing, the lowest spoilt slot.

use crate::baseline;
use crate::inputs::{entries, last_free, mac, table, Entry, CONFIGURED, SIZES, SLOTS};
use crate::library::{self, Age, Lookup, Spoilt};
use crate::measure::{Areas, Pair};
use crate::random::Random;
use crate::report::{Axis, Curve, Report};

const LOOKUP: Pair<Lookup> = Pair {
    ours: library::shinglebar_lookup,
    baseline: baseline::lookup,
};

const AGE: Pair<Age> = Pair {
    ours: library::shinglebar_age,
    baseline: baseline::age,
};

const SPOILT: Pair<Spoilt> = Pair {
    ours: library::shinglebar_spoilt,
    baseline: baseline::spoilt,
};

const FREE_SLOT: Pair<Spoilt> = Pair {
    ours: library::shinglebar_free_slot,
    baseline: baseline::free_slot,
};

/// How many spoilt records of state 0 stand before the free slot.
const FREE_ROWS: [(&str, usize); 3] = [
    ("free slot: the last of 4,096", 0),
    (
        "free slot: the last of 4,096, one spoilt of state 0 before it",
        1,
    ),
    (
        "free slot: the last of 4,096, 4,095 spoilt of state 0 before it",
        SLOTS - 1,
    ),
];

const DONE: u64 = 64;
const NONE: u64 = 65;

pub fn run(report: &Report) {
    let entries = entries(&mut Random::new(1));
    lookup_rows(report, &entries);
    age_rows(report, &entries);
    report.row(
        "spoilt: none in 4,096",
        SPOILT,
        Areas::new(&table(&entries), &[]),
        |word| word == NONE,
        // SAFETY: the area is as long as said.
        |spoilt, lent| unsafe { spoilt(lent.table.as_ptr(), lent.table.len()) },
    );
    free_rows(report, &entries);
    for slots in SIZES {
        growth(report, &entries[..slots]);
    }
}

/// The last slot free, with some spoilt records of state 0 before it; and none free.
fn free_rows(report: &Report, entries: &[Entry]) {
    let row = |name: &str, table: &[u8], expected: u64| {
        report.row(
            name,
            FREE_SLOT,
            Areas::new(table, &[]),
            |word| word == expected,
            // SAFETY: the area is as long as said.
            |free_slot, lent| unsafe { free_slot(lent.table.as_ptr(), lent.table.len()) },
        );
    };
    let last = (SLOTS as u64 - 1) << 8 | 64;
    for (name, spoilt) in FREE_ROWS {
        row(
            name,
            &last_free(entries, spoilt),
            last | (spoilt as u64 + 1) << 32,
        );
    }
    row("free slot: none in 4,096", &table(entries), NONE);
}

fn lookup_rows(report: &Report, entries: &[Entry]) {
    let row = |name: &str, key: &Entry, expected: u64| {
        let (kind, label) = (key.label.kind(), key.label.number());
        report.row(
            name,
            LOOKUP,
            Areas::new(&table(entries), &[]),
            |word| word == expected,
            // SAFETY: the area is as long as said.
            |lookup, lent| unsafe {
                lookup(kind, label, key.mac, lent.table.as_ptr(), lent.table.len())
            },
        );
    };
    let found = |entry: &Entry| 64 | u64::from(entry.nickname) << 8;
    let (first, last) = (entries[0], entries[SLOTS - 1]);
    row("lookup: hit at slot 0 of 4,096", &first, found(&first));
    row("lookup: hit at the last of 4,096", &last, found(&last));
    let unknown = Entry {
        mac: mac(&mut Random::new(2)),
        ..last
    };
    row("lookup: miss in 4,096", &unknown, NONE);
}

fn age_rows(report: &Report, entries: &[Entry]) {
    let row = |name: &str, seconds: u16, entries: &[Entry]| {
        report.row(
            name,
            AGE,
            Areas::new(&table(entries), &[]),
            |word| word == DONE,
            // SAFETY: the area is as long as said.
            |age, lent| unsafe { age(seconds, lent.table.as_mut_ptr(), lent.table.len()) },
        );
    };
    let configured: Vec<Entry> = entries
        .iter()
        .map(|entry| Entry {
            state: CONFIGURED,
            ..*entry
        })
        .collect();
    row("age: 4,096 learned, seconds left", 10, entries);
    row("age: 4,096 learned, all become free", 8191, entries);
    row("age: 4,096 configured", 10, &configured);
}

/// A miss, ageing by 0 seconds, which changes no record but reads and writes each, and none spoilt.
fn growth(report: &Report, entries: &[Entry]) {
    let point = |name| Curve {
        name,
        axis: Axis::Slots,
    };
    let areas = || Areas::new(&table(entries), &[]);
    let key = Entry {
        mac: mac(&mut Random::new(2)),
        ..entries[0]
    };
    let (kind, label) = (key.label.kind(), key.label.number());
    report.point(
        point("lookup: miss"),
        entries.len(),
        LOOKUP,
        areas(),
        |word| word == NONE,
        // SAFETY: the area is as long as said.
        |lookup, lent| unsafe {
            lookup(kind, label, key.mac, lent.table.as_ptr(), lent.table.len())
        },
    );
    report.point(
        point("age: all learned, by 0"),
        entries.len(),
        AGE,
        areas(),
        |word| word == DONE,
        // SAFETY: the area is as long as said.
        |age, lent| unsafe { age(0, lent.table.as_mut_ptr(), lent.table.len()) },
    );
    report.point(
        point("spoilt: none"),
        entries.len(),
        SPOILT,
        areas(),
        |word| word == NONE,
        // SAFETY: the area is as long as said.
        |spoilt, lent| unsafe { spoilt(lent.table.as_ptr(), lent.table.len()) },
    );
}
