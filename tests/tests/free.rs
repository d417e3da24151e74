//! The search for a free slot (2026-04), compared through the C boundary.

use shinglebar_tests::compare;
use shinglebar_tests::generate::{self, Pool};
use shinglebar_tests::random::Random;
use shinglebar_tests::reference::RECORD;
use shinglebar_tests::run;

const SLOTS: usize = 4096;

/// A free record, one of state 0 with other bits set, or one of state 1, 2 or 3.
fn record(random: &mut Random, pool: &Pool, kind: u64) -> Vec<u8> {
    let mut bytes = generate::good_record(random, pool).bytes().to_vec();
    match kind {
        0 => bytes.fill(0),
        1 => bytes[0] &= 0x3F,
        2 => bytes[0] = bytes[0] & 0x3F | 0x40,
        3 => bytes[0] = bytes[0] & 0x3F | 0x80,
        _ => bytes[0] |= 0xC0,
    }
    bytes
}

/// A table of such records, with weights of its own; sometimes a byte too long or too short.
fn mixed(random: &mut Random, pool: &Pool) -> Vec<u8> {
    let slots = match random.below(16) {
        0 => 1,
        1 => SLOTS,
        _ => random.length(1, 64),
    };
    let weights: Vec<u64> = (0..5).map(|_| random.below(4)).collect();
    let total: u64 = weights.iter().sum::<u64>().max(1);
    let mut table = Vec::new();
    for _ in 0..slots {
        let mut left = random.below(total);
        let mut kind = 4;
        for (number, weight) in weights.iter().enumerate() {
            if left < *weight {
                kind = number as u64;
                break;
            }
            left -= weight;
        }
        table.extend(record(random, pool, kind));
    }
    match random.below(8) {
        0 => table.push(0),
        1 => {
            table.pop();
        }
        _ => {}
    }
    table
}

#[test]
fn free_slot_answers_as_the_paper_says() {
    run::cases(
        "free_slot_answers_as_the_paper_says",
        1,
        run::FREE_SLOT,
        &[
            "found in slot 0",
            "found in the last slot of several",
            "found after spoilt records of state 0",
            "found, and records of other states are not counted",
            "none, with spoilt records of state 0",
            "none, and none unpacked",
            "1 slot",
            "4,096 slots",
        ],
        |random, tally| {
            let pool = Pool::new(random);
            let table = match random.below(4) {
                0 => generate::table(random, &pool),
                _ => mixed(random, &pool),
            };
            let word = compare::free_slot(random, &table);
            tally.word(word);
            let slots = table.len() / RECORD;
            let slot = (word >> 8) as u16 as usize;
            let unpacked = (word >> 32) as usize;
            match word as u8 {
                64 => {
                    if slot == 0 {
                        tally.situation("found in slot 0");
                    } else if slot + 1 == slots {
                        tally.situation("found in the last slot of several");
                    }
                    if unpacked > 1 {
                        tally.situation("found after spoilt records of state 0");
                    }
                    if unpacked < slot + 1 {
                        tally.situation("found, and records of other states are not counted");
                    }
                }
                65 if unpacked > 0 => tally.situation("none, with spoilt records of state 0"),
                65 => tally.situation("none, and none unpacked"),
                _ => return,
            }
            match slots {
                1 => tally.situation("1 slot"),
                SLOTS => tally.situation("4,096 slots"),
                _ => {}
            }
        },
    );
}
