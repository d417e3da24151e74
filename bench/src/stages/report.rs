//! The morning report of 4,096 records.

use crate::baseline;
use crate::inputs::{entries, table, Entry, NICKNAMES, SLOTS};
use crate::library::{self, Widen};
use crate::measure::{Areas, Pair};
use crate::random::Random;
use crate::report::Report;

const REPORT: Pair<Widen> = Pair {
    ours: library::shinglebar_report,
    baseline: baseline::report,
};

/// The bytes of the longest report.
const LONGEST: usize = 36_880;

pub fn run(report: &Report) {
    let mut entries = entries(&mut Random::new(14));
    let few = "1001 0000 0000\n".len() * NICKNAMES.len() + "free 0\nspoilt 0\n".len();
    row(report, "report: 16 nicknames", &entries, 0..=few);
    for (slot, entry) in entries.iter_mut().enumerate() {
        // 1,021 has no factor in common with the nicknames that there are: each is another.
        entry.nickname = (1 + slot * 1_021 % 0xFFBF) as u16;
    }
    let all = LONGEST..=LONGEST;
    row(report, "report: 4,096 different nicknames", &entries, all);
    for entry in &mut entries {
        entry.nickname = NICKNAMES[0];
    }
    let one = "1001 4096 0\nfree 0\nspoilt 0\n".len();
    row(report, "report: one nickname", &entries, one..=one);
}

fn row(report: &Report, name: &str, entries: &[Entry], lengths: std::ops::RangeInclusive<usize>) {
    assert_eq!(entries.len(), SLOTS);
    report.row(
        name,
        REPORT,
        Areas::new(&table(entries), &[0xEE; LONGEST]),
        |word| word & 0xFF == 64 && lengths.contains(&((word >> 8) as usize)),
        // SAFETY: the areas do not overlap and are as long as said.
        |report, lent| unsafe {
            report(
                lent.table.as_ptr(),
                lent.table.len(),
                lent.out.as_mut_ptr(),
                lent.out.len(),
            )
        },
    );
}
