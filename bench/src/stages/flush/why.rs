//! Why a flush clears one record: a short message, and the longest ones.

use super::{worst, INGRESS};
use crate::baseline;
use crate::buffer::Buffer;
use crate::inputs::{entries, table, Entry, Label, Payload, NICKNAMES, SLOTS};
use crate::library::{self, Why};
use crate::measure::{Areas, Pair};
use crate::random::Random;
use crate::report::Report;

const WHY: Pair<Why> = Pair {
    ours: library::shinglebar_why,
    baseline: baseline::why,
};

/// The slot that is asked for.
const SLOT: usize = SLOTS / 2;

const LABEL_NOT_MEANT: u64 = 68;
const CLEARED: u64 = 70;

pub fn rows(report: &Report) {
    let mut own = Entry::any(&mut Random::new(4));
    own.nickname = NICKNAMES[3];
    own.label = Label::Vlan(0x4FF);
    let short = Payload::new(&NICKNAMES[3..4]).blocks(&[(0x100, 0x4FF)]);
    row(report, "why: one VLAN block", &short, own, CLEARED);
    let other = Payload::new(&NICKNAMES[3..4]).blocks(&[(0x100, 0x4FE)]);
    row(
        report,
        "why: one VLAN block, not in it",
        &other,
        own,
        LABEL_NOT_MEANT,
    );
    for (name, tlvs, own) in worst::for_one() {
        let payload = Payload::new(&[]).tlvs(&tlvs);
        row(report, &format!("why: {name}"), &payload, own, CLEARED);
    }
}

fn row(report: &Report, name: &str, payload: &[u8], own: Entry, kind: u64) {
    let mut entries = entries(&mut Random::new(4));
    entries[SLOT] = own;
    let payload: &[u8] = &Buffer::input(payload);
    report.row(
        name,
        WHY,
        Areas::new(&table(&entries), &[]),
        |word| word & 0xFF == kind,
        // SAFETY: the areas do not overlap and are as long as said.
        |why, lent| unsafe {
            why(
                u32::from(INGRESS),
                payload.as_ptr(),
                payload.len(),
                SLOT as u64,
                lent.table.as_ptr(),
                lent.table.len(),
            )
        },
    );
}
