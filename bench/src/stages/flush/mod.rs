//! Address Flush on 4,096 learned records: ordinary messages, the worst that fit in a frame, and those
//! whose nicknames no record has.

mod portions;
mod small;
mod why;
mod worst;

use crate::baseline;
use crate::buffer::Buffer;
use crate::inputs::{
    address, entries, fine, table, vlan_blocks, Entry, Label, Payload, NICKNAMES, SIZES,
};
use crate::library::{self, Flush};
use crate::measure::{Areas, Lent, Pair};
use crate::random::Random;
use crate::report::{Axis, Curve, Report};

const FLUSH: Pair<Flush> = Pair {
    ours: library::shinglebar_flush,
    baseline: baseline::flush,
};

const INGRESS: u16 = NICKNAMES[0];

/// The word of a flush that cleared none.
const NONE_CLEARED: u64 = 67;

type Tlv = (u8, Vec<u8>);

/// Eight nicknames that no record has.
fn unknown() -> [u16; 8] {
    [0, 1, 2, 3, 4, 5, 6, 7].map(|number| NICKNAMES[number] ^ 0x8000)
}

pub fn run(report: &Report) {
    ordinary_rows(report);
    many_nicknames(report);
    worst::rows(report);
    portions::rows(report);
    small::rows(report);
    why::rows(report);
    growth_with_table(report);
    worst::growth(report);
    worst::unknown_nicknames(report);
}

fn row(report: &Report, name: &str, payload: &[u8], entries: &[Entry], clears: bool) {
    let payload: &[u8] = &Buffer::input(payload);
    report.row(
        name,
        FLUSH,
        Areas::new(&table(entries), &[]),
        |word| word & 0xFF == 67 && (word != NONE_CLEARED) == clears,
        |flush, lent| call(flush, payload, lent),
    );
}

#[inline(always)]
fn call(flush: Flush, payload: &[u8], lent: &mut Lent) -> u64 {
    // SAFETY: the areas do not overlap and are as long as said.
    unsafe {
        flush(
            u32::from(INGRESS),
            payload.as_ptr(),
            payload.len(),
            lent.table.as_mut_ptr(),
            lent.table.len(),
        )
    }
}

/// The block of the ordinary row, beside records of which none is in it: the call can be repeated.
fn growth_with_table(report: &Report) {
    let mut entries = entries(&mut Random::new(4));
    for entry in &mut entries {
        if let Label::Vlan(vlan @ 0x100..=0x4FF) = entry.label {
            entry.label = Label::Vlan(vlan + 0x400);
        }
    }
    let payload = Payload::new(&NICKNAMES[3..4]).blocks(&[(0x100, 0x4FF)]);
    let payload: &[u8] = &Buffer::input(&payload);
    let curve = Curve {
        name: "flush: one VLAN block, none in it",
        axis: Axis::Slots,
    };
    for slots in SIZES {
        report.point(
            curve,
            slots,
            FLUSH,
            Areas::new(&table(&entries[..slots]), &[]),
            |word| word == NONE_CLEARED,
            |flush, lent| call(flush, payload, lent),
        );
    }
}

fn ordinary_rows(report: &Report) {
    let mut random = Random::new(4);
    let entries = entries(&mut random);

    let payload = Payload::new(&NICKNAMES[3..4]).blocks(&[(0x100, 0x4FF)]);
    row(report, "flush: one VLAN block", &payload, &entries, true);

    let tlvs = mixed_tlvs(&mut random, &entries[..40], 20);
    let payload = Payload::new(&NICKNAMES[..8]).tlvs(&tlvs);
    row(
        report,
        "flush: 8 nicknames, 20 mixed TLVs",
        &payload,
        &entries,
        true,
    );

    let mut map = vec![0x02, 0x00];
    map.extend((0..128).map(|_| random.byte()));
    let payload = Payload::new(&NICKNAMES[3..4]).tlvs(&[(2, map)]);
    row(report, "flush: one VLAN map", &payload, &entries, true);

    let payload = Payload::new(&unknown()).blocks(&[(0x001, 0xFFE)]);
    row(
        report,
        "flush: nothing meant by nickname",
        &payload,
        &entries,
        false,
    );
}

fn many_nicknames(report: &Report) {
    let mut random = Random::new(5);
    let nicknames: Vec<u16> = (0..510).map(|number| 0x0100 + 0x73 * number).collect();
    let mut entries = entries(&mut random);
    for entry in &mut entries {
        entry.nickname = random.pick(&nicknames);
    }
    let tlvs = mixed_tlvs(&mut random, &entries[..400], 200);
    let payload = Payload::new(&nicknames[..255]).tlvs(&tlvs);
    let name = "flush, worst: 255 nicknames, 200 mixed TLVs";
    row(report, name, &payload, &entries, true);
}

/// TLVs of all types but 6, and of one unknown type. Their labels and addresses are of the entries.
fn mixed_tlvs(random: &mut Random, entries: &[Entry], count: usize) -> Vec<Tlv> {
    let mut vlans = Vec::new();
    let mut labels = Vec::new();
    for entry in entries {
        match entry.label {
            Label::Vlan(vlan) => vlans.push(vlan),
            Label::Fine(label) => labels.push(label),
        }
    }
    let kinds = [1, 2, 3, 4, 5, 7, 8, 200];
    let mut tlv = |kind: u8| -> Vec<u8> {
        let mut map = || (0..8).map(|_| random.byte()).collect::<Vec<u8>>();
        match kind {
            2 => {
                let map = map();
                [&random.pick(&vlans).to_be_bytes()[..], &map].concat()
            }
            5 => {
                let map = map();
                [&fine(random.pick(&labels))[..], &map].concat()
            }
            200 => map(),
            _ => (0..4)
                .flat_map(|_| element(random, kind, &vlans, &labels, entries))
                .collect(),
        }
    };
    kinds
        .iter()
        .cycle()
        .take(count)
        .map(|kind| (*kind, tlv(*kind)))
        .collect()
}

/// An element of the value of a type 1, 3, 4, 7 or 8 TLV.
fn element(
    random: &mut Random,
    kind: u8,
    vlans: &[u16],
    labels: &[u32],
    entries: &[Entry],
) -> Vec<u8> {
    let label = random.pick(labels).min(0xFF_0000);
    let mac = random.pick(entries).mac;
    match kind {
        1 => {
            let vlan = random.pick(vlans);
            vlan_blocks(&[(vlan, (vlan + 15).min(0xFFE))])
        }
        3 => [fine(label), fine(label + 0xFF)].concat(),
        4 => fine(label).to_vec(),
        7 => address(mac).to_vec(),
        _ => [address(mac), address(mac + 0xFF)].concat(),
    }
}
