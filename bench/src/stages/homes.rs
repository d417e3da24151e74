//! Stations with several homes, and older tables widened.

use crate::baseline;
use crate::buffer::Buffer;
use crate::inputs::{
    entries, mac, table, Entry, Format, Frame, Label, CONFIGURED, DEFAULT_SECONDS, LEARNED,
    NICKNAMES, SETTINGS, SLOTS,
};
use crate::library::{self, ReceivePort, Widen};
use crate::measure::{Areas, Pair};
use crate::random::Random;
use crate::report::Report;

const RECEIVE: Pair<ReceivePort> = Pair {
    ours: library::shinglebar_receive_port,
    baseline: baseline::receive_port,
};

const WIDEN: Pair<Widen> = Pair {
    ours: library::shinglebar_widen,
    baseline: baseline::widen,
};

/// The setting that the first R bit marks a frame, and that bit in the header's first byte.
const FIRST: u32 = 1;
const MARK: u8 = 0x20;
/// Where the header lies in a General frame without outer tag.
const HEADER_AT: usize = 14;

const OLD_RECORD: usize = 14;

#[derive(Clone, Copy)]
enum Learning {
    Refreshed = 1,
    Kept = 2,
}

pub fn run(report: &Report) {
    for (name, homes) in [("1 home", 1), ("2 homes", 2), ("16 homes", 16)] {
        let name = format!("learning: {name}, marked, refresh at the last of 4,096");
        row(report, &name, homes, MARK, Learning::Refreshed);
    }
    for (name, homes) in [("1 home", 1), ("2 homes", 2), ("16 homes", 16)] {
        let name = format!("learning: {name}, unmarked, one is left");
        row(report, &name, homes, 0, Learning::Refreshed);
    }
    configured(report);
    widen_row(report);
}

/// A station behind a switch, as it is learned.
fn station(random: &mut Random) -> Entry {
    Entry {
        state: LEARNED,
        label: Label::any_vlan(random),
        mac: mac(random),
        nickname: NICKNAMES[0],
        confidence: SETTINGS.confidence as u8,
        seconds: DEFAULT_SECONDS,
        multihomed: true,
    }
}

/// A full table with homes of a station at even distances, the last in the last slot. The frame comes from the last one.
fn row(report: &Report, name: &str, homes: usize, mark: u8, learning: Learning) {
    let mut random = Random::new(2612);
    let (station, mut all) = (station(&mut random), entries(&mut random));
    for (home, nickname) in NICKNAMES.iter().take(homes).enumerate() {
        all[(home + 1) * SLOTS / homes - 1] = Entry {
            nickname: *nickname,
            ..station
        };
    }
    let last = Entry {
        nickname: NICKNAMES[homes - 1],
        ..station
    };
    receive_row(report, name, &last, &all, mark, learning);
}

/// A configured record in the last slot keeps the frame.
fn configured(report: &Report) {
    let mut random = Random::new(2613);
    let (station, mut all) = (station(&mut random), entries(&mut random));
    all[SLOTS - 1] = Entry {
        state: CONFIGURED,
        multihomed: false,
        ..station
    };
    let name = "learning: configured at the last of 4,096, kept";
    receive_row(report, name, &station, &all, MARK, Learning::Kept);
}

fn receive_row(
    report: &Report,
    name: &str,
    from: &Entry,
    entries: &[Entry],
    mark: u8,
    learning: Learning,
) {
    let mut bytes = Frame::from(from).bytes(Format::General, 64);
    bytes[HEADER_AT] |= mark;
    let frame: &[u8] = &Buffer::input(&bytes);
    let vlan = u64::from(from.label.number());
    let delivered = 65 | (frame.len() as u64 - 24) << 8 | (learning as u64) << 24 | vlan << 40;
    let map = [0u8; 1];
    report.row(
        name,
        RECEIVE,
        Areas::new(&table(entries), &[0xEE; 9216]),
        |word| word == delivered,
        // SAFETY: the areas do not overlap and are as long as said.
        |receive, lent| unsafe {
            receive(
                SETTINGS.port,
                SETTINGS.inner,
                SETTINGS.nickname,
                SETTINGS.compact,
                SETTINGS.confidence,
                SETTINGS.seconds,
                FIRST,
                0,
                map.as_ptr(),
                0,
                frame.as_ptr(),
                frame.len(),
                lent.table.as_mut_ptr(),
                lent.table.len(),
                lent.out.as_mut_ptr(),
                lent.out.len(),
            )
        },
    );
}

fn widen_row(report: &Report) {
    let records = entries(&mut Random::new(2614));
    let old: Vec<u8> = records
        .iter()
        .flat_map(|entry| entry.bytes()[..OLD_RECORD].to_vec())
        .collect();
    let length = table(&records).len();
    report.row(
        "widen: 4,096 records",
        WIDEN,
        Areas::new(&old, &vec![0xEE; length]),
        |word| word == 64 | (length as u64) << 8,
        // SAFETY: the areas do not overlap and are as long as said.
        |widen, lent| unsafe {
            widen(
                lent.table.as_ptr(),
                lent.table.len(),
                lent.out.as_mut_ptr(),
                lent.out.len(),
            )
        },
    );
}
