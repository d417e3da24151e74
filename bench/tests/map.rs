//! The hand-written reading with a map and the hand-written ingress give the words of the library's and leave the same bytes, on random
//! maps and frames, bad ones too. A mistake in them would make their times, and so the ratios, worthless.
//!
//! SHINGLEBAR_SEED and SHINGLEBAR_CASES set the seed and the count.

use std::collections::BTreeSet;

use shinglebar_bench::baseline;
use shinglebar_bench::inputs::{address, RECORD, SETTINGS};
use shinglebar_bench::library::{
    shinglebar_ingress, shinglebar_receive_port, Ingress, ReceivePort,
};
use shinglebar_bench::random::Random;

const DEFAULT_CASES: u64 = 100_000;

fn from_environment(name: &str, otherwise: u64) -> u64 {
    std::env::var(name).map_or(otherwise, |text| text.parse().expect("a number"))
}

/// The labels of maps and frames, few, so that many are found.
const LABELS: [u32; 8] = [0, 1, 10, 0xFFF, 0x1000, 0xAB_CDEF, 0xFF_FFFE, 0xFF_FFFF];

fn map(random: &mut Random) -> Vec<u8> {
    let count = match random.between(0, 60) {
        0 => random.between(65, 4_094),
        1..=10 => random.between(9, 64),
        11..=20 => 0,
        _ => random.between(1, 8),
    };
    let mut map = Vec::new();
    for at in 0..count {
        let vlan = match random.one_in(200) {
            true => random.pick(&[0, 1, 0xFFF, 0x1001]),
            false => at as u16 + 1,
        };
        let label = match random.between(0, 400) {
            0 => 0x100_0000,
            1..=2 => random.pick(&LABELS),
            _ if at < 8 => LABELS[at as usize],
            _ => 0x10_0000 + at as u32 * 257,
        };
        map.extend(vlan.to_be_bytes());
        map.extend(label.to_be_bytes());
    }
    if random.one_in(100) {
        map.push(0);
    }
    map
}

fn label(random: &mut Random) -> Vec<u8> {
    let label = match random.one_in(4) {
        true => random.between(0, 0xFF_FFFF) as u32,
        false => random.pick(&LABELS),
    };
    let part = |bits: u32, random: &mut Random| (random.byte() as u16) << 12 | bits as u16 & 0xFFF;
    match random.one_in(4) {
        true => [0x8100, part(label, random)].map(u16::to_be_bytes).concat(),
        false => {
            let (high, low) = (part(label >> 12, random), part(label, random));
            [0x893B, high, 0x893B, low].map(u16::to_be_bytes).concat()
        }
    }
}

/// A frame for the port, General or Compact, or a native one; now and then with a byte changed, or cut.
fn frame(random: &mut Random, native: bool) -> Vec<u8> {
    let inner = [
        &address(random.pick(&[0x0200_0000_000D, 0x0180_C200_0043, SETTINGS.inner]))[..],
        &address(0x0200_0000_0001),
    ]
    .concat();
    let egress = random.pick(&[
        SETTINGS.nickname as u16,
        SETTINGS.nickname as u16,
        0x0999,
        0xFFC0,
    ]);
    let first = random.pick(&[0x0005, 0x0005, 0x1005, 0x2005, 0x3005, 0x0000]);
    let trill = [0x22F3, first, egress, 0x1234]
        .map(u16::to_be_bytes)
        .concat();
    let label = label(random);
    let outer = [&address(SETTINGS.port)[..], &address(0x0200_0000_00B2)].concat();
    let tag = [
        0x8100,
        (random.byte() as u16) << 12 | random.between(1, 9) as u16,
    ];
    let mut frame = match (native, random.one_in(2)) {
        (true, _) => [inner, tag.map(u16::to_be_bytes).concat()].concat(),
        (false, true) => [inner, label, trill].concat(),
        (false, false) => [outer, trill, inner, label].concat(),
    };
    frame.extend(random.pick(&[[0x08, 0x00], [0x89, 0x46]]));
    for _ in 0..random.between(0, 20) {
        frame.push(random.byte());
    }
    if random.one_in(300) {
        frame.resize(random.pick(&[9192, 9193, 9216, 9217]), 0);
    }
    if random.one_in(4) {
        let at = random.between(0, frame.len() as u64 - 1) as usize;
        frame[at] ^= 1 << random.between(0, 7);
    }
    if random.one_in(10) {
        frame.truncate(random.between(0, frame.len() as u64) as usize);
    }
    frame
}

fn read(
    call: ReceivePort,
    multihomed: u32,
    map: &[u8],
    frame: &[u8],
    table: &[u8],
    room: usize,
) -> Left {
    let (mut table, mut out) = (table.to_vec(), vec![0xEE; room]);
    // SAFETY: the areas do not overlap and are as long as said.
    let word = unsafe {
        call(
            SETTINGS.port,
            SETTINGS.inner,
            SETTINGS.nickname,
            SETTINGS.compact,
            SETTINGS.confidence,
            SETTINGS.seconds,
            multihomed,
            0,
            map.as_ptr(),
            map.len(),
            frame.as_ptr(),
            frame.len(),
            table.as_mut_ptr(),
            table.len(),
            out.as_mut_ptr(),
            out.len(),
        )
    };
    (word, table, out)
}

fn put(
    call: Ingress,
    map: &[u8],
    numbers: [u32; 4],
    outer: [u64; 2],
    frame: &[u8],
    room: usize,
) -> Left {
    let [m, hop_count, egress, ingress] = numbers;
    let mut out = vec![0xEE; room];
    // SAFETY: the areas do not overlap and are as long as said.
    let word = unsafe {
        call(
            SETTINGS.port,
            SETTINGS.inner,
            SETTINGS.nickname,
            SETTINGS.compact,
            SETTINGS.confidence,
            SETTINGS.seconds,
            map.as_ptr(),
            map.len(),
            outer[0],
            outer[1],
            m,
            hop_count,
            egress,
            ingress,
            frame.as_ptr(),
            frame.len(),
            out.as_mut_ptr(),
            out.len(),
        )
    };
    (word, Vec::new(), out)
}

/// The word, the table and the output area after a call.
type Left = (u64, Vec<u8>, Vec<u8>);

#[test]
fn the_hand_written_reading_with_a_map_and_ingress_do_what_the_library_does() {
    let seed = from_environment("SHINGLEBAR_SEED", 2601);
    let (mut read_words, mut put_words) = (BTreeSet::new(), BTreeSet::new());
    for case in 0..from_environment("SHINGLEBAR_CASES", DEFAULT_CASES) {
        let random = &mut Random::new(seed ^ case << 20);
        let map = map(random);
        let table = vec![0; RECORD * random.between(1, 3) as usize];
        let bytes = frame(random, false);
        let room = random.between(0, 70) as usize;
        let bit = random.pick(&[0, 1, 2, 2, 3]);
        let ours = read(shinglebar_receive_port, bit, &map, &bytes, &table, room);
        let hand = read(baseline::receive_port, bit, &map, &bytes, &table, room);
        assert!(
            ours == hand,
            "seed {seed}, case {case}: {:#x} {:#x}",
            ours.0,
            hand.0
        );
        read_words.insert(ours.0 as u8);

        let bytes = frame(random, true);
        let many = random.one_in(3);
        let destination = match many ^ random.one_in(10) {
            true => 0x0180_C200_0040,
            false => 0x0200_0000_00A1 | u64::from(random.one_in(20)) << random.between(40, 60),
        };
        let source = 0x0200_0000_00B2 | u64::from(random.one_in(30)) << random.between(40, 60);
        let numbers = [
            if random.one_in(30) {
                2
            } else {
                u32::from(many)
            },
            if random.one_in(10) {
                random.pick(&[0, 64])
            } else {
                63
            },
            if random.one_in(10) {
                random.pick(&[0, 0xFFC0])
            } else {
                0xFFBF
            },
            if random.one_in(10) {
                random.pick(&[0, 0x1_0001])
            } else {
                1
            },
        ];
        let outer = [destination, source];
        let room = random.between(20, 90) as usize;
        let ours = put(shinglebar_ingress, &map, numbers, outer, &bytes, room);
        let hand = put(baseline::ingress, &map, numbers, outer, &bytes, room);
        assert!(
            ours == hand,
            "seed {seed}, case {case}: {:#x} {:#x}",
            ours.0,
            hand.0
        );
        put_words.insert(ours.0 as u8);
    }
    for word in [1, 3, 4, 5, 6, 7, 8, 9, 10, 12, 13, 14, 16, 21, 22, 64, 65] {
        assert!(read_words.contains(&word), "reading never gave {word}");
    }
    for word in [1, 3, 6, 8, 9, 10, 11, 12, 16, 21, 22, 64] {
        assert!(put_words.contains(&word), "ingress never gave {word}");
    }
}
