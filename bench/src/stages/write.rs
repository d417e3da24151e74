//! Writing a flush.

use crate::baseline;
use crate::buffer::Buffer;
use crate::library::{self, WriteFlush};
use crate::measure::{Areas, Pair};
use crate::report::Report;

const WRITE: Pair<WriteFlush> = Pair {
    ours: library::shinglebar_write_flush,
    baseline: baseline::write_flush,
};

/// The bytes of the longest payload.
const LONGEST: usize = 6172;

/// So many blocks of two numbers of a width.
fn blocks(count: u64, width: usize) -> Vec<u8> {
    let numbers = (0..count).flat_map(|at| [3 + 5 * at, 6 + 5 * at]);
    numbers
        .flat_map(|x| x.to_be_bytes()[8 - width..].to_vec())
        .collect()
}

pub fn run(report: &Report) {
    row(report, "write: one VLAN block", [0, 1, 0, 0], 6);
    row(report, "write: 255 of everything", [255; 4], LONGEST as u64);
}

fn row(report: &Report, name: &str, counts: [u64; 4], length: u64) {
    let [n, v, f, m] = counts;
    let nicknames: &[u8] = &Buffer::input(&vec![0x12; 2 * n as usize]);
    let vlans: &[u8] = &Buffer::input(&blocks(v, 2));
    let fine: &[u8] = &Buffer::input(&blocks(f, 4));
    let macs: &[u8] = &Buffer::input(&blocks(m, 8));
    report.row(
        name,
        WRITE,
        Areas::new(&[], &[0xEE; LONGEST]),
        |word| word == 64 | length << 8,
        // SAFETY: the areas do not overlap and are as long as said.
        |write, lent| unsafe {
            write(
                nicknames.as_ptr(),
                nicknames.len(),
                vlans.as_ptr(),
                vlans.len(),
                fine.as_ptr(),
                fine.len(),
                macs.as_ptr(),
                macs.len(),
                lent.out.as_mut_ptr(),
                lent.out.len(),
            )
        },
    );
}
