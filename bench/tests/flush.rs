//! The hand-written flush gives the words of the library's and leaves the same tables, on random messages
//! of all kinds, corrupt ones too. A mistake in it would make its times, and so the ratios, worthless.
//!
//! SHINGLEBAR_SEED and SHINGLEBAR_CASES set the seed and the count.

use shinglebar_bench::baseline;
use shinglebar_bench::inputs::{address, fine, vlan_blocks, RECORD, SLOTS};
use shinglebar_bench::library::{shinglebar_flush, shinglebar_why, Flush, Why};
use shinglebar_bench::random::Random;

/// One case in so many has a full table and a message that fills a frame.
const LONG_ONE_IN: u64 = 50;
const LONG_PAYLOAD: u64 = 9_000;
const SHORT_PAYLOAD: u64 = 120;

/// Labels and addresses from which records and messages are made, so that many are meant.
struct Pool {
    vlans: Vec<u64>,
    labels: Vec<u64>,
    macs: Vec<u64>,
    nicknames: Vec<u64>,
}

impl Pool {
    fn new(random: &mut Random, count: u64) -> Pool {
        let mask = random.pick(&[0xFF, 0xFFF, 0xF_F0FF, 0xFF_FFFF, u64::MAX]);
        let mut numbers = |edges: &[u64], last: u64, count: u64| -> Vec<u64> {
            let count = random.between(1, count);
            let number = |random: &mut Random| match random.one_in(8) {
                true => random.pick(edges),
                false => random.between(0, last) & mask & !GROUP,
            };
            (0..count).map(|_| number(random)).collect()
        };
        Pool {
            vlans: numbers(&[0, 1, 0xFFE, 0xFFF], 0xFFF, count),
            labels: numbers(&FINE_EDGES, 0xFF_FFFF, count),
            macs: numbers(&[0, 0xFEFF_FFFF_FFFF], (1 << 48) - 1, count),
            nicknames: numbers(&[0, 1, 0xFFBF, 0xFFC0, 0xFFFF], 0xFFFF, NICKNAMES),
        }
    }

    fn vlan(&self, random: &mut Random) -> u64 {
        near(random, &self.vlans, 0xFFF)
    }

    fn label(&self, random: &mut Random) -> u64 {
        near(random, &self.labels, 0xFF_FFFF)
    }

    fn mac(&self, random: &mut Random) -> u64 {
        near(random, &self.macs, (1 << 48) - 1)
    }
}

const GROUP: u64 = 1 << 40;
const FINE_EDGES: [u64; 6] = [0, 1, 0xFFF, 0x1_0000, 0xFF_FFFE, 0xFF_FFFF];
/// The nicknames of a case are few, so that many records have one that is meant.
const NICKNAMES: u64 = 4;

/// One of the numbers, or one some way before or after it.
fn near(random: &mut Random, numbers: &[u64], last: u64) -> u64 {
    let number = random.pick(numbers);
    let reach = random.pick(&[1, 16, 300, 70_000]);
    match random.between(0, 7) {
        0 => number.saturating_sub(random.between(0, reach)),
        1 => (number + random.between(0, reach)).min(last),
        _ => number,
    }
}

/// A record: most are learned, some configured, free or spoilt.
fn record(random: &mut Random, pool: &Pool) -> [u8; RECORD] {
    let state: u64 = random.pick(&[1, 1, 1, 1, 1, 1, 1, 2, 3, 0]);
    if state == 0 && !random.one_in(4) {
        return [0; RECORD];
    }
    let kind = random.between(0, 1);
    let label = match kind {
        0 if random.one_in(50) => random.between(0, 0xFF_FFFF),
        0 => pool.vlan(random),
        _ => pool.label(random),
    };
    let group = if random.one_in(50) { GROUP } else { 0 };
    // Marked or not; now and then spoilt by the bits behind the mark.
    let last = match random.between(0, 24) {
        0 => random.between(0, 0xFF),
        1..=6 => 0x80,
        _ => 0,
    };
    let bits = u128::from(state) << 118
        | u128::from(kind) << 117
        | u128::from(label) << 93
        | u128::from(pool.mac(random) | group) << 45
        | u128::from(random.pick(&pool.nicknames)) << 29
        | u128::from(random.between(0, 0x1F_FFFF)) << 8
        | u128::from(last);
    let [_, bytes @ ..] = bits.to_be_bytes();
    bytes
}

fn three(label: u64) -> [u8; 3] {
    fine(label as u32)
}

/// An element of the value of a type 1, 3, 4, 7 or 8 TLV.
fn element(random: &mut Random, pool: &Pool, kind: u8) -> Vec<u8> {
    match kind {
        1 => {
            let reserved = random.pick(&[0, 0x8000]);
            let [start, end] = [(); 2].map(|()| pool.vlan(random) as u16);
            vlan_blocks(&[(start | reserved, end)])
        }
        3 => [(); 2].map(|()| three(pool.label(random))).concat(),
        4 => three(pool.label(random)).to_vec(),
        7 => address(pool.mac(random)).to_vec(),
        _ => [(); 2].map(|()| address(pool.mac(random))).concat(),
    }
}

fn value(random: &mut Random, pool: &Pool, kind: u8) -> Vec<u8> {
    let start = match kind {
        2 => (pool.vlan(random) as u16).to_be_bytes().to_vec(),
        5 => three(pool.label(random)).to_vec(),
        _ => Vec::new(),
    };
    let most = random.pick(&[0, 1, 4, 40, 252]);
    match kind {
        1 | 3 | 4 | 7 | 8 => {
            let room = 255 / element(random, pool, kind).len() as u64;
            let count = random.between(0, most.min(room));
            (0..count)
                .flat_map(|_| element(random, pool, kind))
                .collect()
        }
        6 => Vec::new(),
        _ => {
            let map = (0..random.between(0, most)).map(|_| random.byte());
            start.into_iter().chain(map).collect()
        }
    }
}

/// A message of about so many bytes, of TLVs of a few types or of VLAN blocks.
fn payload(random: &mut Random, pool: &Pool, length: u64) -> Vec<u8> {
    let nicknames = random.pick(&[0, 1, 1, 2, 8, 255]);
    let mut bytes = vec![nicknames as u8];
    for _ in 0..nicknames {
        bytes.extend((near(random, &pool.nicknames, 0xFFFF) as u16).to_be_bytes());
    }
    if random.one_in(6) {
        let blocks = random.between(1, 255.min(length / 4));
        bytes.push(blocks as u8);
        bytes.extend((0..blocks).flat_map(|_| element(random, pool, 1)));
        return bytes;
    }
    bytes.push(0);
    let kinds: Vec<u8> = (0..random.between(1, 4))
        .map(|_| random.pick(&[1, 2, 3, 4, 5, 7, 8, 0, 9, 200]))
        .collect();
    let last = bytes.len() + random.between(0, length) as usize;
    while bytes.len() < last {
        let kind = if random.one_in(200) {
            6
        } else {
            random.pick(&kinds)
        };
        let value = match random.one_in(500) {
            true => Vec::new(),
            false => value(random, pool, kind),
        };
        bytes.extend([kind, value.len() as u8]);
        bytes.extend(value);
    }
    bytes
}

/// Cuts, lengthens or changes the message.
fn damage(random: &mut Random, bytes: &mut Vec<u8>) {
    match random.between(0, 2) {
        0 => bytes.truncate(random.between(0, bytes.len() as u64) as usize),
        1 => bytes.push(random.pick(&[0, 1, 6, 9])),
        _ => {
            let at = random.between(0, bytes.len() as u64 - 1) as usize;
            bytes[at] = random.byte();
        }
    }
}

fn word(flush: Flush, ingress: u32, payload: &[u8], table: &mut [u8]) -> u64 {
    // SAFETY: the areas do not overlap and are as long as said.
    unsafe {
        flush(
            ingress,
            payload.as_ptr(),
            payload.len(),
            table.as_mut_ptr(),
            table.len(),
        )
    }
}

fn reason(why: Why, ingress: u32, payload: &[u8], slot: u64, table: &[u8]) -> u64 {
    // SAFETY: the areas do not overlap and are as long as said.
    unsafe {
        why(
            ingress,
            payload.as_ptr(),
            payload.len(),
            slot,
            table.as_ptr(),
            table.len(),
        )
    }
}

fn number_of(variable: &str, otherwise: u64) -> u64 {
    std::env::var(variable).map_or(otherwise, |text| text.parse().expect("a number"))
}

/// What the cases came to: refused, cleared some, cleared none.
#[derive(Default, Debug)]
struct Met {
    refused: u64,
    clearing: u64,
    idle: u64,
}

#[test]
fn the_hand_written_flush_does_what_the_library_does() {
    let first = number_of("SHINGLEBAR_SEED", 1);
    let cases = number_of("SHINGLEBAR_CASES", 100_000);
    let mut met = Met::default();
    for seed in first..first + cases {
        let mut random = Random::new(seed);
        let long = random.one_in(LONG_ONE_IN);
        let (slots, length, numbers) = match long {
            true => (SLOTS as u64, LONG_PAYLOAD, 3_000),
            false => (random.between(1, 70), SHORT_PAYLOAD, 6),
        };
        let pool = Pool::new(&mut random, numbers);
        let mut ours: Vec<u8> = (0..slots)
            .flat_map(|_| record(&mut random, &pool))
            .collect();
        let mut payload = payload(&mut random, &pool, length);
        if random.one_in(8) {
            damage(&mut random, &mut payload);
        }
        let ingress = random.pick(&pool.nicknames) as u32 | random.pick(&[0, 0, 0, 0x1_0000]);
        // Of some slots, and of one that is not there, it is asked why.
        let mut asked = vec![slots];
        asked.extend((0..8).map(|_| random.between(0, slots - 1)));
        for slot in asked {
            let answer = reason(shinglebar_why, ingress, &payload, slot, &ours);
            let theirs = reason(baseline::why, ingress, &payload, slot, &ours);
            assert!(
                answer == theirs,
                "seed {seed}, slot {slot}: {answer:#x} and {theirs:#x}"
            );
        }
        let mut hand_written = ours.clone();
        let answer = word(shinglebar_flush, ingress, &payload, &mut ours);
        let theirs = word(baseline::flush, ingress, &payload, &mut hand_written);
        assert!(answer == theirs, "seed {seed}: {answer:#x} and {theirs:#x}");
        assert!(ours == hand_written, "seed {seed}: the tables differ");
        match answer {
            15 => met.refused += 1,
            67 => met.idle += 1,
            _ => met.clearing += 1,
        }
    }
    let least = cases / 50;
    let often = met.refused > least && met.clearing > least && met.idle > least;
    assert!(often, "too few of one kind: {met:?}");
    eprintln!("{met:?}");
}
