//! Writing an Address Flush, compared through the C boundary, and fed to the library's own flush.

use shinglebar_tests::boundary;
use shinglebar_tests::c_program;
use shinglebar_tests::compare;
use shinglebar_tests::generate::{self, Pool};
use shinglebar_tests::random::Random;
use shinglebar_tests::reference::{self, Block, Label, Lists, Record, RECORD};
use shinglebar_tests::run::{self, Tally};

/// The longest payload.
const LONGEST: usize = 6172;

/// The four areas of a call.
struct Areas {
    nicknames: Vec<u8>,
    vlans: Vec<u8>,
    fine: Vec<u8>,
    macs: Vec<u8>,
}

fn laid(numbers: &[u64], width: usize) -> Vec<u8> {
    let bytes = numbers.iter().map(|number| number.to_be_bytes());
    bytes
        .flat_map(|bytes| bytes[8 - width..].to_vec())
        .collect()
}

fn laid_blocks(blocks: &[Block], width: usize) -> Vec<u8> {
    let numbers: Vec<u64> = blocks
        .iter()
        .flat_map(|&(start, end)| [start, end])
        .collect();
    laid(&numbers, width)
}

impl Areas {
    fn of(lists: &Lists) -> Areas {
        Areas {
            nicknames: laid(&lists.nicknames, 2),
            vlans: laid_blocks(&lists.vlans, 2),
            fine: laid_blocks(&lists.fine, 4),
            macs: laid_blocks(&lists.macs, 8),
        }
    }

    fn pick(&mut self, random: &mut Random) -> &mut Vec<u8> {
        match random.below(4) {
            0 => &mut self.nicknames,
            1 => &mut self.vlans,
            2 => &mut self.fine,
            _ => &mut self.macs,
        }
    }

    fn write(&self, random: &mut Random, out: &mut [u8]) -> u64 {
        compare::write_flush(
            random,
            &self.nicknames,
            &self.vlans,
            &self.fine,
            &self.macs,
            out,
        )
    }
}

/// The length of a list: often on both sides of where a TLV is full, or a list too long.
fn list_length(random: &mut Random) -> usize {
    const EDGES: [u64; 12] = [20, 21, 22, 41, 42, 43, 62, 63, 64, 254, 255, 126];
    match random.below(8) {
        0 | 1 => 0,
        2..=4 => random.length(1, 4),
        5 | 6 => random.pick(&EDGES) as usize,
        _ => random.length(0, 255),
    }
}

/// A block of numbers, of a pool's and of any.
fn block(random: &mut Random, known: u64, low: u64, high: u64) -> Block {
    let (a, b) = match random.below(4) {
        0 => (known, known),
        1 => (
            known.saturating_sub(random.below(3)),
            known + random.below(3),
        ),
        2 => (random.between(low, high), random.between(low, high)),
        _ => (
            random.pick(&[low, known, high]),
            random.pick(&[low, known, high]),
        ),
    };
    let (a, b) = (a.clamp(low, high), b.clamp(low, high));
    (a.min(b), a.max(b))
}

fn lists(random: &mut Random, pool: &Pool, table: &[u8]) -> Lists {
    let (mut nicknames, mut vlans, mut fine, mut macs) = (vec![], vec![], vec![], vec![]);
    for _ in 0..list_length(random) {
        let (_, _, mac) = generate::key(random, pool, table);
        macs.push(block(random, mac & 0xFFFF_FFFF_FFFF, 0, 0xFFFF_FFFF_FFFF));
    }
    for _ in 0..list_length(random) {
        nicknames.push(u64::from(generate::ingress(random, pool)) & 0xFFFF);
    }
    for _ in 0..list_length(random) {
        let (_, label, _) = generate::key(random, pool, table);
        vlans.push(block(random, u64::from(label) & 0xFFF, 0x001, 0xFFE));
    }
    for _ in 0..list_length(random) {
        let (_, label, _) = generate::key(random, pool, table);
        fine.push(block(random, u64::from(label) & 0xFF_FFFF, 0, 0xFF_FFFF));
    }
    Lists {
        nicknames,
        vlans,
        fine,
        macs,
    }
}

/// Makes one thing of the lists wrong, if there is a block for it.
fn spoil(random: &mut Random, lists: &mut Lists, tally: &mut Tally) {
    let kind = random.below(8);
    match kind {
        0 => {
            lists.vlans.clear();
            lists.fine.clear();
            tally.situation("no label named");
        }
        1 => {
            for blocks in [&mut lists.vlans, &mut lists.fine, &mut lists.macs] {
                if let Some(last) = blocks.last_mut().filter(|last| last.0 < last.1) {
                    *last = (last.1, last.0);
                    tally.situation("an end below its start");
                }
            }
        }
        2 => {
            let bad = random.pick(&[
                (0, 5),
                (5, 0xFFF),
                (0xFFF, 0xFFF),
                (0, 0),
                (5, 0x1005),
                (0xFFFF, 0xFFFF),
            ]);
            lists.vlans.push(bad);
            tally.situation("a VLAN outside 1 to FFE");
        }
        3 => {
            lists.fine.push(random.pick(&[
                (5, 0x100_0000),
                (0x100_0000, 0x100_0000),
                (0, 0xFFFF_FFFF),
            ]));
            tally.situation("a label over FFFFFF");
        }
        4 => {
            lists
                .macs
                .push(random.pick(&[(5, 1 << 48), (1 << 48, 1 << 48), (0, u64::MAX)]));
            tally.situation("a MAC over 48 bits");
        }
        _ => {
            let long = random.length(256, 260);
            match kind {
                5 => lists.nicknames.resize(long, 1),
                6 => lists.vlans.resize(long, (1, 1)),
                _ => random
                    .pick(&[0, 1])
                    .eq(&0)
                    .then(|| lists.fine.resize(long, (1, 1)))
                    .unwrap_or_else(|| lists.macs.resize(long, (1, 1))),
            }
            tally.situation("a list too long");
        }
    }
}

#[test]
fn write_flush_answers_and_writes_as_the_paper_says() {
    let wanted = [
        "no label named",
        "an end below its start",
        "a VLAN outside 1 to FFE",
        "a label over FFFFFF",
        "a MAC over 48 bits",
        "a list too long",
        "an area of no whole items",
        "the VLAN block form",
        "TLVs",
        "one byte short",
        "just enough",
        "255 of everything",
    ];
    run::cases(
        "write_flush_answers_and_writes_as_the_paper_says",
        4,
        run::WRITE,
        &wanted,
        |random, tally| {
            let pool = Pool::new(random);
            let table = generate::good_length_table(random, &pool);
            let mut lists = lists(random, &pool, &table);
            if random.one_in(50) {
                lists.nicknames.resize(255, 7);
                lists.vlans.resize(255, (7, 8));
                lists.fine.resize(255, (7, 8));
                lists.macs.resize(255, (7, 8));
                tally.situation("255 of everything");
            }
            if random.one_in(3) {
                spoil(random, &mut lists, tally);
            }
            let mut areas = Areas::of(&lists);
            if random.one_in(8) {
                let area = areas.pick(random);
                area.extend(random.bytes(1));
                tally.situation("an area of no whole items");
            }
            let mut whole = random.bytes(LONGEST + 4);
            let word = areas.write(random, &mut whole);
            tally.word(word);
            if word & 0xFF != 64 {
                return;
            }
            let length = (word >> 8) as usize;
            let front = 1 + 2 * usize::from(whole[0]);
            tally.situation(if whole[front] > 0 {
                "the VLAN block form"
            } else {
                "TLVs"
            });
            for (length, name) in [(length - 1, "one byte short"), (length, "just enough")] {
                let mut out = random.bytes(length);
                tally.word(areas.write(random, &mut out));
                tally.situation(name);
            }
        },
    );
}

/// Every pair of lengths on both sides of where a TLV is full, and of where a list is too long.
#[test]
fn lists_of_every_length_around_a_full_tlv_are_written() {
    let lengths = [0, 1, 20, 21, 22, 41, 42, 43, 62, 63, 64, 254, 255, 256];
    let mut random = run::random("lists_of_every_length_around_a_full_tlv_are_written");
    for vlans in lengths {
        for fine in lengths {
            for macs in lengths {
                let numbered =
                    |count: usize| (0..count as u64).map(|at| (1 + at, 2 + at)).collect();
                let lists = Lists {
                    nicknames: vec![0x1234; lengths[(vlans + fine + macs) % lengths.len()]],
                    vlans: numbered(vlans),
                    fine: numbered(fine),
                    macs: numbered(macs),
                };
                let mut out = vec![0xEE; LONGEST];
                Areas::of(&lists).write(&mut random, &mut out);
            }
        }
    }
}

/// Whether the lists ask for an entry to be forgotten.
fn asks(lists: &Lists, ingress: u64, entry: &reference::Entry) -> bool {
    let has = |blocks: &[Block], x: u64| blocks.iter().any(|&(start, end)| start <= x && x <= end);
    let nickname = u64::from(entry.nickname);
    let named = match lists.nicknames.is_empty() {
        true => nickname == ingress,
        false => lists.nicknames.contains(&nickname),
    };
    let label = match entry.label {
        Label::Vlan(vlan) => has(&lists.vlans, u64::from(vlan)),
        Label::Fine(fine) => has(&lists.fine, u64::from(fine)),
    };
    named && label && (lists.macs.is_empty() || has(&lists.macs, entry.mac))
}

/// What the library writes, also with zeros after it, makes the library's own flush clear what the lists
/// ask for, and nothing else.
#[test]
fn the_librarys_own_flush_clears_what_was_asked_for() {
    let wanted = [
        "a record asked for",
        "a learned record not asked for",
        "padded",
    ];
    run::cases(
        "the_librarys_own_flush_clears_what_was_asked_for",
        8,
        &[(67, "flushed")],
        &wanted,
        |random, tally| {
            let pool = Pool::new(random);
            let table = generate::good_length_table(random, &pool);
            let mut lists = lists(random, &pool, &table);
            if lists.vlans.is_empty() && lists.fine.is_empty() {
                lists.vlans.push((1, 0xFFE));
            }
            let areas = Areas::of(&lists);
            let mut payload = vec![0; LONGEST];
            let word = boundary::write_flush(
                random,
                &areas.nicknames,
                &areas.vlans,
                &areas.fine,
                &areas.macs,
                &mut payload,
            );
            assert_eq!(word & 0xFF, 64);
            payload.truncate((word >> 8) as usize);
            let zeros = random.pick(&[0, 0, 1, 2, 3, 17]);
            if zeros > 0 {
                tally.situation("padded");
            }
            payload.resize(payload.len() + zeros, 0);
            let ingress = generate::ingress(random, &pool);
            let mut after = table.clone();
            let flushed = boundary::flush(random, ingress, &payload, &mut after);
            tally.word(flushed);
            let mut count = 0;
            for (before, after) in table.chunks_exact(RECORD).zip(after.chunks_exact(RECORD)) {
                match reference::read(before) {
                    Record::Learned(entry) if asks(&lists, u64::from(ingress), &entry) => {
                        assert_eq!(after, [0; RECORD]);
                        tally.situation("a record asked for");
                        count += 1;
                    }
                    Record::Learned(_) => {
                        assert_eq!(after, before);
                        tally.situation("a learned record not asked for");
                    }
                    _ => assert_eq!(after, before),
                }
            }
            assert_eq!(flushed >> 8, count);
        },
    );
}

#[test]
fn the_two_vectors_of_the_request_are_written() {
    let mut random = run::random("the_two_vectors_of_the_request_are_written");
    let p2 = Lists {
        nicknames: vec![0x1234],
        vlans: vec![(10, 12)],
        ..Lists::default()
    };
    let mac = 0x0200_0000_0001;
    let macs = Lists {
        vlans: vec![(10, 12)],
        macs: vec![(mac, mac)],
        ..Lists::default()
    };
    let mut out = [0; 32];
    assert_eq!(Areas::of(&p2).write(&mut random, &mut out), 0x0840);
    assert_eq!(out[..8], [0x01, 0x12, 0x34, 0x01, 0x00, 0x0A, 0x00, 0x0C]);
    assert_eq!(Areas::of(&macs).write(&mut random, &mut out), 0x1640);
    assert_eq!(
        out[..22],
        [0, 0, 1, 4, 0, 10, 0, 12, 8, 12, 2, 0, 0, 0, 0, 1, 2, 0, 0, 0, 0, 1]
    );
}

#[test]
fn the_header_passes_null_areas_to_write_flush() {
    c_program::compile_and_run("null_write.c");
}
