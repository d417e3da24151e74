//! The hand-written reading and writing of Smart-Hellos are the library's on random payloads and contents, in areas with and without room.
//!
//! SHINGLEBAR_SEED and SHINGLEBAR_CASES set the seed and the count.

use shinglebar_bench::baseline;
use shinglebar_bench::library::{shinglebar_hello_read, shinglebar_hello_write, Widen};
use shinglebar_bench::random::Random;

fn number_of(variable: &str, otherwise: u64) -> u64 {
    std::env::var(variable).map_or(otherwise, |text| text.parse().expect("a number"))
}

fn call(read: Widen, payload: &[u8], room: u64) -> (u64, Vec<u8>) {
    let mut out = vec![0xEE; room as usize];
    // SAFETY: the areas do not overlap and are as long as said.
    let word = unsafe { read(payload.as_ptr(), payload.len(), out.as_mut_ptr(), out.len()) };
    (word, out)
}

fn bytes(random: &mut Random, length: u64) -> Vec<u8> {
    (0..length).map(|_| random.byte()).collect()
}

fn piece(kind: u8, value: &[u8]) -> Vec<u8> {
    let mut piece = vec![kind, value.len() as u8];
    piece.extend(value);
    piece
}

fn sub(random: &mut Random) -> Vec<u8> {
    let kind = random.pick(&[6, 8, 22, 23, 23, 99]);
    let few = random.between(0, 4);
    let mut length = match kind {
        6 => 5 * few,
        8 => 2 + 2 * few,
        22 => 4,
        23 => 4 + 6 * few,
        _ => few,
    };
    if random.one_in(100) {
        length = random.between(0, 30);
    }
    let value = bytes(random, length);
    piece(kind, &value)
}

fn payload(random: &mut Random) -> Vec<u8> {
    let mut payload = Vec::new();
    for _ in 0..random.between(0, 5) {
        let kind = random.pick(&[242, 242, 251, 251, 251, 145]);
        let mut value = match kind {
            242 => bytes(random, 5),
            251 => vec![random.pick(&[0, 0, 0, 4, 8, 12]), 0, 1],
            _ => vec![],
        };
        if kind == 251 {
            let addresses = (value[0] & 4) + 2 * (value[0] & 8);
            value.extend(bytes(random, addresses.into()));
            value[2] = if random.one_in(10) { 2 } else { 1 };
            if random.one_in(20) {
                value.truncate(random.between(0, value.len() as u64) as usize);
            }
        }
        for _ in 0..random.between(0, 4) {
            value.extend(sub(random));
        }
        value.truncate(255);
        payload.extend(piece(kind, &value));
    }
    if random.one_in(2) {
        payload.extend([251, 9, 0, 0, 1, 22, 4, 0, 30, 0, 0]);
    }
    if random.one_in(10) {
        payload.truncate(random.between(0, payload.len() as u64) as usize);
    }
    payload
}

#[test]
fn the_hand_written_reading_is_the_library_s() {
    let first = number_of("SHINGLEBAR_SEED", 1);
    let cases = number_of("SHINGLEBAR_CASES", 30_000);
    let mut counts = [0; 4];
    for seed in first..first + cases {
        let mut random = Random::new(seed);
        let payload = payload(&mut random);
        let (word, _) = call(shinglebar_hello_read, &payload, 1 << 14);
        let length = if word & 0xFF == 64 { word >> 8 } else { 48 };
        for room in [length, length - 1, random.between(0, length), 1 << 14] {
            let ours = call(shinglebar_hello_read, &payload, room);
            let theirs = call(baseline::hello_read, &payload, room);
            assert!(
                ours == theirs,
                "seed {seed}: {:#x} and {:#x}",
                ours.0,
                theirs.0
            );
            counts[match ours.0 & 0xFF {
                16 => 0,
                25 => 1,
                26 => 2,
                _ => 3,
            }] += 1;
        }
    }
    assert!(counts.iter().all(|&count| count > cases / 10), "{counts:?}");
}

/// A count, which is now and then one that no TLV holds.
fn length(random: &mut Random, most: u64) -> u64 {
    match random.between(0, 40) {
        0 => most + 1,
        1..=3 => most,
        4..=8 => random.between(0, most),
        _ => random.between(0, 4),
    }
}

/// A number of so many bits, and now and then one more.
fn field(random: &mut Random, bits: u32) -> u64 {
    match random.one_in(800) {
        true => 1 << random.between(bits.into(), 63),
        false => random.between(0, (1 << bits) - 1),
    }
}

/// The numbers of a contents area, mostly good ones.
fn numbers(random: &mut Random) -> Vec<u64> {
    let mut all = vec![if random.one_in(8) { 0 } else { 1 }];
    if random.one_in(60) {
        all[0] = 2;
    }
    for _ in 0..all[0] {
        all.extend([field(random, 16), field(random, 16)]);
    }
    let count = random.between(0, 4);
    all.push(count);
    for _ in 0..count {
        let records = length(random, 49);
        all.push(records);
        for _ in 0..records {
            all.extend([field(random, 8), field(random, 16), field(random, 16)]);
        }
    }
    let count = random.between(0, 4);
    all.push(count);
    for _ in 0..count {
        let trees = length(random, 123);
        all.extend([field(random, 16), trees]);
        all.extend((0..trees).map(|_| field(random, 16)));
    }
    let count = random.between(0, 4);
    all.push(count);
    for _ in 0..count {
        let fine = field(random, 1);
        let macs = length(random, 41);
        let bits = if fine == 1 { 24 } else { 12 };
        all.extend([fine, field(random, 1), field(random, bits), macs]);
        all.extend((0..macs).map(|_| field(random, 48)));
    }
    if random.one_in(20) {
        let at = random.between(0, all.len() as u64 - 1) as usize;
        all[at] = match random.between(0, 3) {
            0 => u64::MAX,
            1 => u64::MAX / 3 + 1,
            2 => 1 << random.between(0, 63),
            _ => random.between(0, 60),
        };
    }
    all
}

#[test]
fn the_hand_written_writing_is_the_library_s() {
    let first = number_of("SHINGLEBAR_SEED", 1);
    let cases = number_of("SHINGLEBAR_CASES", 30_000);
    let mut counts = [0; 4];
    for seed in first..first + cases {
        let mut random = Random::new(seed);
        let mut contents: Vec<u8> = numbers(&mut random)
            .iter()
            .flat_map(|number| number.to_be_bytes())
            .collect();
        if random.one_in(20) {
            contents.truncate(random.between(0, contents.len() as u64) as usize);
        } else if random.one_in(40) {
            contents.extend(bytes(&mut random, 8));
        }
        let (word, _) = call(shinglebar_hello_write, &contents, 1 << 14);
        let length = if word & 0xFF == 64 { word >> 8 } else { 11 };
        for room in [length, length - 1, random.between(0, length), 1 << 14] {
            let ours = call(shinglebar_hello_write, &contents, room);
            let theirs = call(baseline::hello_write, &contents, room);
            assert!(
                ours == theirs,
                "seed {seed}: {:#x} and {:#x}",
                ours.0,
                theirs.0
            );
            counts[match ours.0 & 0xFF {
                16 => 0,
                25 => 1,
                26 => 2,
                _ => 3,
            }] += 1;
        }
    }
    assert!(counts.iter().all(|&count| count > cases / 10), "{counts:?}");
}
