//! Smart-Hellos: 41 MACs, and 9,000 bytes of each kind and of what is skipped; and the payloads written from what was read of them.

use crate::baseline;
use crate::buffer::Buffer;
use crate::library::{self, Widen};
use crate::measure::{Areas, Pair};
use crate::report::Report;

const READ: Pair<Widen> = Pair {
    ours: library::shinglebar_hello_read,
    baseline: baseline::hello_read,
};

const WRITE: Pair<Widen> = Pair {
    ours: library::shinglebar_hello_write,
    baseline: baseline::hello_write,
};

/// The bytes of a payload that a frame brings.
const LONG: usize = 9_000;

const CAPABILITY: u8 = 242;
const GENINFO: u8 = 251;

fn piece(kind: u8, value: &[u8]) -> Vec<u8> {
    let mut bytes = vec![kind, value.len() as u8];
    bytes.extend(value);
    bytes
}

/// A TLV with sub-TLVs behind its head.
fn tlv(kind: u8, subs: &[Vec<u8>]) -> Vec<u8> {
    let head: &[u8] = match kind {
        GENINFO => &[0, 0, 1],
        _ => &[0; 5],
    };
    piece(kind, &[head, &subs.concat()].concat())
}

/// A value of so many bytes, none of which is its neighbour.
fn value(length: usize) -> Vec<u8> {
    (0..length).map(|at| (37 * at + 1) as u8).collect()
}

/// Smart-Parameters, and then a TLV as often as it has room in so many bytes.
pub fn payload(room: usize, tlv: &[u8]) -> Vec<u8> {
    let mut bytes = piece(GENINFO, &[0, 0, 1, 22, 4, 0, 30, 0, 0]);
    while bytes.len() + tlv.len() <= room {
        bytes.extend(tlv);
    }
    bytes
}

/// Payloads by name.
fn payloads() -> Vec<(&'static str, Vec<u8>)> {
    let macs = tlv(GENINFO, &[piece(23, &value(4 + 6 * 41))]);
    let nicknames = tlv(CAPABILITY, &[piece(6, &value(5 * 49))]);
    let trees = tlv(CAPABILITY, &[piece(8, &value(2 + 2 * 123))]);
    let one = tlv(GENINFO, &[piece(23, &value(4 + 6))]);
    let each = [nicknames.clone(), trees.clone(), macs.clone()].concat();
    vec![
        ("41 MACs", payload(11 + macs.len(), &macs)),
        ("9,000 bytes, each kind", payload(LONG, &each)),
        ("9,000 bytes of MACs", payload(LONG, &macs)),
        ("9,000 bytes of nicknames", payload(LONG, &nicknames)),
        ("9,000 bytes, a MAC in a TLV", payload(LONG, &one)),
    ]
}

pub fn run(report: &Report) {
    for (name, payload) in payloads() {
        read(report, &format!("hello read: {name}"), &payload);
    }
    let skipped = payload(LONG, &[145, 0]);
    read(
        report,
        "hello read: 9,000 bytes of empty TLVs (worst)",
        &skipped,
    );
    for (name, payload) in written() {
        write(report, &format!("hello write: {name}"), &contents(&payload));
    }
}

/// Payloads as they are written, by name.
fn written() -> Vec<(&'static str, Vec<u8>)> {
    let one = tlv(GENINFO, &vec![piece(23, &value(4 + 6)); 21]);
    let none = tlv(CAPABILITY, &vec![piece(6, &[]); 125]);
    let mut all = payloads();
    all.truncate(4);
    all.push(("9,000 bytes, a MAC in a sub-TLV", payload(LONG, &one)));
    all.push((
        "9,000 bytes of empty sub-TLVs (worst)",
        payload(LONG, &none),
    ));
    all
}

/// The contents of a payload.
fn contents(payload: &[u8]) -> Vec<u8> {
    let mut contents = vec![0; 8 * LONG];
    let word = shinglebar::raw::hello_read(payload, &mut contents);
    assert_eq!(word & 0xFF, 64);
    contents.truncate((word >> 8) as usize);
    contents
}

fn read(report: &Report, name: &str, payload: &[u8]) {
    let payload: &[u8] = &Buffer::input(payload);
    report.row(
        name,
        READ,
        Areas::new(&[], &vec![0xEE; 8 * LONG]),
        |word| word & 0xFF == 64,
        // SAFETY: the areas do not overlap and are as long as said.
        |read, lent| unsafe {
            read(
                payload.as_ptr(),
                payload.len(),
                lent.out.as_mut_ptr(),
                lent.out.len(),
            )
        },
    );
}

fn write(report: &Report, name: &str, contents: &[u8]) {
    let contents: &[u8] = &Buffer::input(contents);
    report.row(
        name,
        WRITE,
        Areas::new(&[], &vec![0xEE; 2 * LONG]),
        |word| word & 0xFF == 64,
        // SAFETY: the areas do not overlap and are as long as said.
        |write, lent| unsafe {
            write(
                contents.as_ptr(),
                contents.len(),
                lent.out.as_mut_ptr(),
                lent.out.len(),
            )
        },
    );
}
