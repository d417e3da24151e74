//! The user's fault replayed: a good flush cut at each of its lengths, and padded. The rows are those of docs/REPLAY.md.

use shinglebar_tests::compare;
use shinglebar_tests::random::Random;
use shinglebar_tests::reference::{write, Entry, Label, RECORD};

/// One nickname, no VLAN blocks, then two TLVs: the VLANs 10 to 12, and one MAC.
const PAYLOAD: [u8; 18] = [
    0x01, 0x12, 0x34, 0x00, 0x01, 0x04, 0x00, 0x0A, 0x00, 0x0C, 0x07, 0x06, 0x02, 0x00, 0x00, 0x00,
    0x00, 0x01,
];

fn record(learned: bool, vlan: u32, mac: u64, nickname: u16) -> [u8; RECORD] {
    let label = Label::vlan(vlan).expect("a VLAN");
    write(
        learned,
        &Entry {
            label,
            mac,
            nickname,
            confidence: 20,
            seconds: 300,
            multihomed: false,
        },
    )
}

fn table() -> Vec<u8> {
    [
        record(true, 10, 0x0200_0000_0001, 0x1234),
        record(true, 12, 0x0200_0000_0002, 0x1234),
        record(false, 11, 0x0200_0000_0001, 0x1234),
        record(true, 10, 0x0200_0000_0003, 0x1235),
    ]
    .concat()
}

/// The flush answers the count of these slots, which it clears, or 15.
fn check(payload: &[u8], cleared: Result<&[usize], u64>) {
    let mut expected = table();
    for slot in cleared.unwrap_or(&[]) {
        expected[RECORD * slot..RECORD * (slot + 1)].fill(0);
    }
    let answer = cleared.map_or_else(|refusal| refusal, |slots| 67 | (slots.len() as u64) << 8);
    let mut after = table();
    let word = compare::flush(&mut Random::new(1), 0x0102, payload, &mut after);
    assert_eq!(word, answer, "{} bytes", payload.len());
    assert_eq!(after, expected, "{} bytes", payload.len());
}

#[test]
fn a_flush_cut_inside_a_field_changes_nothing() {
    for length in 0..=PAYLOAD.len() {
        check(
            &PAYLOAD[..length],
            match length {
                // no TLV: no label was gathered
                4 => Ok(&[]),
                // the VLANs alone: every MAC is meant
                10 => Ok(&[0, 1]),
                // the VLANs and the MAC
                18 => Ok(&[0]),
                // cut inside a field
                _ => Err(15),
            },
        );
    }
}

/// A link pads what arrives with zeros: the cut payload is then read as if the zeros were its own.
#[test]
fn a_flush_that_is_cut_and_padded_is_read_with_its_zeros() {
    for length in 0..=PAYLOAD.len() {
        for zeros in 1..=42 {
            let padded = [&PAYLOAD[..length], &vec![0; zeros]].concat();
            let missing = match length {
                0 => 2,
                1 => 3,
                2 => 2,
                3 => 1,
                5 | 11 => 1,
                6..=9 => 10 - length,
                12..=17 => 18 - length,
                _ => 0,
            };
            check(
                &padded,
                match length {
                    _ if zeros < missing => Err(15),
                    // no TLV, or a type 1 without a block, or the VLANs 10 to 0
                    0..=9 => Ok(&[]),
                    // the VLANs alone; padding, or a type 7 without a MAC
                    10 | 11 => Ok(&[0, 1]),
                    // a MAC that ends with zeros, which no record has
                    12..=17 => Ok(&[]),
                    _ => Ok(&[0]),
                },
            );
        }
    }
}
