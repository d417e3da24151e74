//! The flush of the VLAN-only model, on the messages of the full one's rows.

use super::{call, mixed_tlvs, unknown, worst};
use crate::baseline;
use crate::buffer::Buffer;
use crate::inputs::{entries, table, Entry, Payload, NICKNAMES};
use crate::library::{self, Flush};
use crate::measure::{Areas, Pair};
use crate::random::Random;
use crate::report::Report;

const SMALL: Pair<Flush> = Pair {
    ours: library::shinglebar_flush_vlan_only,
    baseline: baseline::flush_vlan_only,
};

pub fn rows(report: &Report) {
    let mut random = Random::new(4);
    let entries = entries(&mut random);
    let block = Payload::new(&NICKNAMES[3..4]).blocks(&[(0x100, 0x4FF)]);
    let mixed = mixed_tlvs(&mut random, &entries[..40], 20);
    let mut map = vec![0x02, 0x00];
    map.extend((0..128).map(|_| random.byte()));
    let messages = [
        ("one VLAN block", block),
        (
            "8 nicknames, 20 mixed TLVs",
            Payload::new(&NICKNAMES[..8]).tlvs(&mixed),
        ),
        (
            "one VLAN map",
            Payload::new(&NICKNAMES[3..4]).tlvs(&[(2, map)]),
        ),
        (
            "nothing meant by nickname",
            Payload::new(&unknown()).blocks(&[(0x001, 0xFFE)]),
        ),
    ];
    for (name, payload) in messages {
        row(
            report,
            &format!("VLAN-only flush: {name}"),
            &payload,
            &entries,
        );
    }
    for (name, tlvs, entries) in worst::longest() {
        let payload = Payload::new(&[]).tlvs(&tlvs);
        let name = format!("VLAN-only flush, worst: {name}");
        row(report, &name, &payload, &entries);
    }
}

fn row(report: &Report, name: &str, payload: &[u8], entries: &[Entry]) {
    let payload: &[u8] = &Buffer::input(payload);
    report.row(
        name,
        SMALL,
        Areas::new(&table(entries), &[]),
        |word| word & 0xFF == 67,
        |flush, lent| call(flush, payload, lent),
    );
}
