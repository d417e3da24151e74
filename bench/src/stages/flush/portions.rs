//! Portions of a flush on 4,096 learned records: one call, and all of them. What a frame waits at most is the longest call.

use super::{worst, INGRESS};
use crate::baseline;
use crate::buffer::Buffer;
use crate::inputs::{entries, table, Entry, Payload, NICKNAMES, SLOTS};
use crate::library::{self, Portion};
use crate::measure::{Areas, Lent, Pair};
use crate::random::Random;
use crate::report::{thousands, Report};

const PORTION: Pair<Portion> = Pair {
    ours: library::shinglebar_flush_portion,
    baseline: baseline::flush_portion,
};

const SIZES: [u64; 4] = [1, 16, 64, SLOTS as u64];

/// The slots of a portion that the whole flush is cut into.
const CUT: u64 = 64;

pub fn rows(report: &Report) {
    let short = Payload::new(&NICKNAMES[3..4]).blocks(&[(0x100, 0x4FF)]);
    let ordinary = entries(&mut Random::new(4));
    let (tlvs, crowd) = worst::labels();
    let long = Payload::new(&[]).tlvs(&tlvs);
    for k in SIZES {
        let slots = thousands(k);
        let name = format!("portion: {slots} slots, one VLAN block");
        one(report, &name, &short, &ordinary, k);
        let name = format!("portion, worst: {slots} slots, 9,000 bytes of labels");
        one(report, &name, &long, &crowd, k);
    }
    all(
        report,
        "portions of 64, all: one VLAN block",
        &short,
        &ordinary,
    );
    all(
        report,
        "portions of 64, all, worst: 9,000 bytes of labels",
        &long,
        &crowd,
    );
}

#[inline(always)]
fn call(portion: Portion, payload: &[u8], slot: u64, k: u64, lent: &mut Lent) -> u64 {
    // SAFETY: the areas do not overlap and are as long as said.
    unsafe {
        portion(
            u32::from(INGRESS),
            payload.as_ptr(),
            payload.len(),
            slot,
            k,
            lent.table.as_mut_ptr(),
            lent.table.len(),
        )
    }
}

/// From the middle of the table on, or its start where all slots are examined.
fn one(report: &Report, name: &str, payload: &[u8], entries: &[Entry], k: u64) {
    let payload: &[u8] = &Buffer::input(payload);
    let slot = (SLOTS as u64 - k) / 2;
    report.row(
        name,
        PORTION,
        Areas::new(&table(entries), &[]),
        |word| word & 0xFF == 64 && word >> 40 == k,
        |portion, lent| call(portion, payload, slot, k, lent),
    );
}

/// All portions of a flush, one after the other.
fn all(report: &Report, name: &str, payload: &[u8], entries: &[Entry]) {
    let payload: &[u8] = &Buffer::input(payload);
    report.row(
        name,
        PORTION,
        Areas::new(&table(entries), &[]),
        |word| word & 0xFF == 64 && word >> 24 & 0xFFFF == SLOTS as u64,
        |portion, lent| {
            let mut word = 64;
            while (word >> 24 & 0xFFFF) < SLOTS as u64 {
                word = call(portion, payload, word >> 24 & 0xFFFF, CUT, lent);
            }
            word
        },
    );
}
