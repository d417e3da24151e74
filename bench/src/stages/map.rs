//! A port's map: reading with maps of several lengths, and ingress.

use crate::baseline;
use crate::buffer::Buffer;
use crate::inputs::{
    address, entries, mac, table, Entry, Label, DEFAULT_SECONDS, LEARNED, SETTINGS,
};
use crate::library::{self, Ingress, ReceivePort};
use crate::measure::{Areas, Pair};
use crate::random::Random;
use crate::report::Report;

const RECEIVE: Pair<ReceivePort> = Pair {
    ours: library::shinglebar_receive_port,
    baseline: baseline::receive_port,
};

const INGRESS: Pair<Ingress> = Pair {
    ours: library::shinglebar_ingress,
    baseline: baseline::ingress,
};

/// The maps of reading: the label of the frame is in the last pair.
const SIZES: [(&str, usize); 4] = [("0", 0), ("2", 2), ("50", 50), ("4,094", 4094)];
const LENGTHS: [(&str, usize); 3] = [("64", 64), ("1,500", 1500), ("9,192", 9192)];
const LABEL: u32 = 0xAB_CDEF;
const GENERAL_LENGTH: usize = 64;

pub fn run(report: &Report) {
    for (name, size) in SIZES {
        receive_row(report, &format!("receive: map of {name} pairs"), size);
    }
    for (name, length) in LENGTHS {
        ingress_row(report, &format!("ingress: {name} bytes"), length);
    }
}

/// A map whose last pair is that of the label, with other labels at random.
fn map(size: usize) -> Vec<u8> {
    let mut random = Random::new(2601);
    let mut labels = vec![LABEL];
    while labels.len() < size {
        let label = random.between(0, 0xFF_FFFF) as u32;
        if !labels.contains(&label) {
            labels.push(label);
        }
    }
    labels.truncate(size);
    let pair = |(at, label): (usize, &u32)| {
        let vlan = (size - at) as u16;
        [&vlan.to_be_bytes()[..], &label.to_be_bytes()[..]].concat()
    };
    let mut pairs: Vec<Vec<u8>> = labels.iter().enumerate().map(pair).collect();
    pairs.reverse();
    pairs.concat()
}

/// Reads a fine-grained General frame of 64 bytes whose source is in slot 0, as it is learned already.
fn receive_row(report: &Report, name: &str, size: usize) {
    let mut random = Random::new(3);
    let source = Entry {
        state: LEARNED,
        label: Label::Fine(LABEL),
        mac: mac(&mut random),
        nickname: 0x1607,
        confidence: SETTINGS.confidence as u8,
        seconds: DEFAULT_SECONDS,
        multihomed: false,
    };
    let mut entries = entries(&mut random);
    entries[0] = source;
    let bytes = [
        &address(SETTINGS.port)[..],
        &address(0x0200_0000_00B2),
        &[0x22, 0xF3, 0x00, 0x05],
        &(SETTINGS.nickname as u16).to_be_bytes(),
        &source.nickname.to_be_bytes(),
        &address(0x0200_0000_000D),
        &address(source.mac),
        &[0x89, 0x3B, 0x6A, 0xBC, 0x89, 0x3B, 0x6D, 0xEF],
        &[0x08, 0x00, 0x45],
        &[0x5A; GENERAL_LENGTH - 43],
    ]
    .concat();
    assert_eq!(bytes.len(), GENERAL_LENGTH);
    let tag = if size == 0 { 0 } else { 4 };
    let native = (GENERAL_LENGTH - 28 + tag) as u64;
    let delivered = 65 | native << 8 | 1 << 24 | 1 << 32 | u64::from(LABEL) << 40;
    let frame: &[u8] = &Buffer::input(&bytes);
    let map: &[u8] = &Buffer::input(&map(size));
    report.row(
        name,
        RECEIVE,
        Areas::new(&table(&entries), &[0xEE; 9216]),
        |word| word == delivered,
        // SAFETY: the areas do not overlap and are as long as said.
        |receive, lent| unsafe {
            receive(
                SETTINGS.port,
                SETTINGS.inner,
                SETTINGS.nickname,
                SETTINGS.compact,
                SETTINGS.confidence,
                SETTINGS.seconds,
                0,
                0,
                map.as_ptr(),
                map.len(),
                frame.as_ptr(),
                frame.len(),
                lent.table.as_mut_ptr(),
                lent.table.len(),
                lent.out.as_mut_ptr(),
                lent.out.len(),
            )
        },
    );
}

/// A native frame of this length, with a map of two pairs.
fn ingress_row(report: &Report, name: &str, length: usize) {
    let mut bytes = [
        &address(0x0200_0000_000D)[..],
        &address(0x001B_2104_0506),
        &[0x81, 0x00, 0x60, 0x02, 0x08, 0x00],
    ]
    .concat();
    let mut random = Random::new(7);
    while bytes.len() < length {
        bytes.push(random.byte());
    }
    let written = 64 | (length as u64 + 24) << 8;
    let frame: &[u8] = &Buffer::input(&bytes);
    let map: &[u8] = &Buffer::input(&map(2));
    report.row(
        name,
        INGRESS,
        Areas::new(&[], &[0xEE; 9216]),
        |word| word == written,
        // SAFETY: the areas do not overlap and are as long as said.
        |ingress, lent| unsafe {
            ingress(
                SETTINGS.port,
                SETTINGS.inner,
                SETTINGS.nickname,
                SETTINGS.compact,
                SETTINGS.confidence,
                SETTINGS.seconds,
                map.as_ptr(),
                map.len(),
                0x0200_0000_00A2,
                0x0200_0000_00B2,
                0,
                5,
                0x1234,
                SETTINGS.nickname,
                frame.as_ptr(),
                frame.len(),
                lent.out.as_mut_ptr(),
                lent.out.len(),
            )
        },
    );
}
