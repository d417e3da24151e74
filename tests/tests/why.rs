//! Why a flush clears the record of a slot, or leaves it (document 02, 2026-08), compared through the C boundary.

use shinglebar::raw;
use shinglebar_tests::c_program;
use shinglebar_tests::compare;
use shinglebar_tests::generate::{self, Pool};
use shinglebar_tests::random::Random;
use shinglebar_tests::reference::{self, RECORD};
use shinglebar_tests::run::{self, Tally};

/// P1 of document 01, widened: learned, VLAN 10, 02-00-00-00-00-01, nickname 1234.
const P1: [u8; RECORD] = [
    0x40, 0x00, 0x01, 0x40, 0x40, 0x00, 0x00, 0x00, 0x00, 0x22, 0x46, 0x82, 0x81, 0x2C, 0x00,
];

const FREE: u64 = 64;
const NICKNAME: u64 = 67;
const LABEL: u64 = 68;
const MAC: u64 = 69;
const CLEARED: u64 = 70;
const SENDER: u64 = 1 << 16;
const BY_TLV: u64 = 1 << 17;
const EVERY_MAC: u64 = 1 << 63;
const PLACE_MAX: u64 = 4_194_303;

fn is_cleared(word: u64) -> bool {
    word & 0xFF == CLEARED
}

fn nickname_place(word: u64) -> u64 {
    word >> 8 & 0xFF
}

fn label_place(word: u64) -> u64 {
    word >> 18 & PLACE_MAX
}

fn mac_place(word: u64) -> u64 {
    word >> 40 & PLACE_MAX
}

/// Both implementations on P1 alone.
fn of_p1(ingress: u32, payload: &[u8]) -> u64 {
    compare::why(&mut Random::new(1), ingress, payload, 0, &P1)
}

fn bytes(hex: &str) -> Vec<u8> {
    let digits: String = hex.split(' ').collect();
    let pairs = digits.as_bytes().chunks(2);
    let byte = |pair| u8::from_str_radix(std::str::from_utf8(pair).expect("digits"), 16);
    pairs.map(|pair| byte(pair).expect("a byte")).collect()
}

#[test]
fn the_vectors_of_the_request() {
    // P2's payload; P3's from another switch.
    let p2 = bytes("01 1234 01 000A000C");
    assert_eq!(of_p1(0x0102, &p2), 0x8000_0000_0000_0046);
    let p3 = bytes("00 01 000A000A");
    assert_eq!(of_p1(0x1234, &p3), EVERY_MAC | SENDER | CLEARED);
    assert_eq!(of_p1(0x1235, &p3), NICKNAME);
    // A MAC of another station, a skipped TLV, all labels; then its own MAC.
    let other = bytes("00 00 07 06 020000000002 09 00 06 00");
    assert_eq!(of_p1(0x1234, &other), MAC);
    let own = bytes("00 00 07 06 020000000001 09 00 06 00");
    assert_eq!(of_p1(0x1234, &own), 0x0000_0000_000B_0046);
}

#[test]
fn the_first_place_is_named_and_every_tlv_counts() {
    let tlv = |place: u64, mac: u64| CLEARED | SENDER | BY_TLV | place << 18 | mac;
    for (hex, expected) in [
        // all labels, and the VLAN behind it; the VLAN, and all labels behind it
        ("00 00 06 00 01 04 000A000A", tlv(0, EVERY_MAC)),
        (
            "00 00 01 04 000B000A 01 04 000A000A 06 00",
            tlv(1, EVERY_MAC),
        ),
        // a map; one with the bit beside it
        ("00 00 02 03 000A80", tlv(0, EVERY_MAC)),
        ("00 00 02 03 000A40 02 04 00000020", tlv(1, EVERY_MAC)),
        // fine-grained 10 is another label
        (
            "00 00 04 03 00000A 03 06 00000000FFFF 05 04 00000A80",
            LABEL,
        ),
        // a MAC TLV that gathers none leaves every MAC; the place is the first that has the MAC
        (
            "00 00 07 00 08 0C 020000000002020000000001 06 00",
            tlv(2, EVERY_MAC),
        ),
        (
            "00 00 07 06 020000000002 08 0C 020000000000020000000001 07 06 020000000001 06 00",
            tlv(3, 1 << 40),
        ),
        // skipped types count: 0, whose length may be any, and those above 8; a padding byte has no place
        (
            "00 00 00 00 00 03 060000 FF 02 0600 06 00 00",
            tlv(3, EVERY_MAC),
        ),
        // no label, whatever MACs there are
        ("00 00 07 06 020000000002", LABEL),
        ("00 00", LABEL),
        // what follows blocks is ignored
        ("00 01 000B000B 06 00", LABEL),
        (
            "00 02 000B000A 000A000A 07 06 020000000002",
            CLEARED | SENDER | EVERY_MAC | 1 << 18,
        ),
        // the first of two that match; a listed nickname that is the sender's is listed
        (
            "03 5678 1234 1234 00 06 00",
            CLEARED | BY_TLV | EVERY_MAC | 1 << 8,
        ),
        ("01 1234 00 06 00", CLEARED | BY_TLV | EVERY_MAC),
        // the nickname before the label, the label before the MAC
        ("01 5678 00 07 06 020000000002", NICKNAME),
        ("01 1234 00 01 04 000B000B 07 06 020000000002", LABEL),
    ] {
        assert_eq!(of_p1(0x1234, &bytes(hex)), expected, "{hex}");
    }
    // the last of 255 nicknames and the last of 255 blocks
    let mut payload = vec![255];
    payload.extend([0x56, 0x78].repeat(254));
    payload.extend([0x12, 0x34, 255]);
    payload.extend([0x00, 0x0B, 0x00, 0x0A].repeat(254));
    payload.extend([0x00, 0x0A, 0x00, 0x0A]);
    let last = CLEARED | EVERY_MAC | 254 << 8 | 254 << 18;
    assert_eq!(of_p1(0x1234, &payload), last);
}

#[test]
fn an_ingress_number_that_no_record_has_is_no_sender() {
    let payload = bytes("00 00 06 00");
    for ingress in [0, 0xFFC0, 0x1_1234, 0x8000_1234, u32::MAX] {
        assert_eq!(of_p1(ingress, &payload), NICKNAME);
    }
}

/// "a place over 4,194,303 shows as that": only a payload of over 8 MB has one.
#[test]
fn a_place_beyond_the_word_shows_as_the_highest() {
    let why = |payload: &[u8]| raw::why(0x1234, payload, 0, &P1);
    for (skipped, shown) in [
        (PLACE_MAX - 1, PLACE_MAX - 1),
        (PLACE_MAX, PLACE_MAX),
        (PLACE_MAX + 1, PLACE_MAX),
    ] {
        let mut payload = vec![0, 0];
        payload.resize(payload.len() + 2 * skipped as usize, 0);
        payload.extend(bytes("06 00"));
        let labels = CLEARED | SENDER | BY_TLV | shown << 18;
        assert_eq!(why(&payload), labels | EVERY_MAC);
        payload.extend(bytes("07 06 020000000001"));
        let next = (skipped + 1).min(PLACE_MAX);
        assert_eq!(why(&payload), labels | next << 40);
        // The second implementation is slow on so long a payload, and asked once.
        if skipped > PLACE_MAX {
            assert_eq!(reference::why(0x1234, &payload, 0, &P1), why(&payload));
        }
    }
}

fn count_places(tally: &mut Tally, word: u64, payload: &[u8]) {
    if !is_cleared(word) {
        return;
    }
    tally.situation(match (word & SENDER != 0, nickname_place(word)) {
        (true, _) => "sender",
        (false, 0) => "the first nickname",
        _ => "a later nickname",
    });
    tally.situation(match (word & BY_TLV != 0, label_place(word)) {
        (false, 0) => "the first block",
        (false, _) => "a later block",
        (true, 0) => "the label by the first TLV",
        (true, _) => "the label by a later TLV",
    });
    if word & BY_TLV == 0 {
        return;
    }
    let kinds = kinds(payload);
    let kind = kinds[label_place(word) as usize];
    tally.situation(
        [
            "type 1 brings the label",
            "type 2 brings the label",
            "type 3 brings the label",
            "type 4 brings the label",
            "type 5 brings the label",
            "type 6 brings the label",
        ][usize::from(kind) - 1],
    );
    if kinds[..label_place(word) as usize]
        .iter()
        .any(|kind| *kind == 0 || *kind > 8)
    {
        tally.situation("a skipped TLV before the label's");
    }
    if word & EVERY_MAC != 0 {
        tally.situation(match kinds.iter().any(|kind| matches!(kind, 7 | 8)) {
            true => "every MAC, and MAC TLVs that gather none",
            false => "every MAC, no MAC TLV",
        });
        return;
    }
    tally.situation(match kinds[mac_place(word) as usize] {
        7 => "type 7 brings the MAC",
        8 => "type 8 brings the MAC",
        other => panic!("type {other} brings no MAC"),
    });
    tally.situation(match mac_place(word) < label_place(word) {
        true => "the MAC before the label",
        false => "the label before the MAC",
    });
}

const PLACES: &[&str] = &[
    "sender",
    "the first nickname",
    "a later nickname",
    "the first block",
    "a later block",
    "the label by the first TLV",
    "the label by a later TLV",
    "type 1 brings the label",
    "type 2 brings the label",
    "type 3 brings the label",
    "type 4 brings the label",
    "type 5 brings the label",
    "type 6 brings the label",
    "a skipped TLV before the label's",
    "every MAC, and MAC TLVs that gather none",
    "every MAC, no MAC TLV",
    "type 7 brings the MAC",
    "type 8 brings the MAC",
    "the MAC before the label",
    "the label before the MAC",
    "24 before 15",
    "15 of a free slot",
    "the last of 4,096 slots",
];

/// Where the TLVs of a good payload begin, or the blocks where it has some.
fn behind_counts(payload: &[u8]) -> usize {
    2 + 2 * usize::from(payload[0])
}

/// The types of the TLVs of a good payload without blocks.
fn kinds(payload: &[u8]) -> Vec<u8> {
    let mut rest = &payload[behind_counts(payload)..];
    let mut kinds = Vec::new();
    while let [kind, length, behind @ ..] = rest {
        kinds.push(*kind);
        rest = &behind[usize::from(*length)..];
    }
    kinds
}

/// The slots that are asked for: all of a short table, some of a long one, and some that are not there.
fn asked(random: &mut Random, table: &[u8]) -> Vec<u64> {
    let n = (table.len() / RECORD) as u64;
    let mut slots: Vec<u64> = match n {
        0..=40 => (0..n).collect(),
        _ => (0..20).map(|_| random.below(n)).chain([0, n - 1]).collect(),
    };
    slots.push(random.pick(&[n, n + 1, n.wrapping_neg(), 1 << 16, 1 << 32, u64::MAX]));
    slots
}

#[test]
fn why_answers_as_the_paper_says() {
    run::cases(
        "why_answers_as_the_paper_says",
        2,
        run::WHY,
        PLACES,
        |random, tally| {
            let pool = Pool::new(random);
            let payload = generate::payload(random, &pool);
            let table = generate::table(random, &pool);
            let ingress = generate::ingress(random, &pool);
            for slot in asked(random, &table) {
                let word = compare::why(random, ingress, &payload, slot, &table);
                tally.word(word);
                count_places(tally, word, &payload);
                let corrupt = || reference::flush(ingress, &payload, &mut table.clone()) == 15;
                if word == 24 && corrupt() {
                    tally.situation("24 before 15");
                }
                let record = table.chunks_exact(RECORD).nth(slot as usize);
                if word == 15 && record == Some(&[0; RECORD]) {
                    tally.situation("15 of a free slot");
                }
                if slot == 4095 && word >= FREE {
                    tally.situation("the last of 4,096 slots");
                }
            }
            // Now and then each payload cut: what is corrupt is 15, whatever the record.
            if table.len() <= 40 * RECORD && random.one_in(8) {
                for length in generate::cuts(random, payload.len()) {
                    let slot = random.below((table.len() / RECORD).max(1) as u64);
                    let cut = &payload[..length];
                    tally.word(compare::why(random, ingress, cut, slot, &table));
                }
            }
        },
    );
}

/// ""cleared" is said exactly of the slots the flush clears": both by the library.
#[test]
fn cleared_is_said_exactly_of_the_slots_that_the_flush_changes() {
    run::cases(
        "cleared_is_said_exactly_of_the_slots_that_the_flush_changes",
        4,
        &run::WHY[3..],
        &["all cleared", "some cleared", "none cleared"],
        |random, tally| {
            let pool = Pool::new(random);
            let payload = generate::good_payload(random, &pool);
            let table = generate::good_length_table(random, &pool);
            let ingress = generate::ingress(random, &pool);
            let mut after = table.clone();
            let flushed = raw::flush(ingress, &payload, &mut after);
            let mut count = 0;
            let records = table.chunks_exact(RECORD).zip(after.chunks_exact(RECORD));
            for (slot, (before, after)) in records.enumerate() {
                let word = raw::why(ingress, &payload, slot as u64, &table);
                assert_eq!(is_cleared(word), before != after, "slot {slot}");
                count += u64::from(is_cleared(word));
                tally.word(word);
            }
            assert_eq!(flushed, 67 | count << 8);
            tally.situation(match count {
                0 => "none cleared",
                _ if count == (table.len() / RECORD) as u64 => "all cleared",
                _ => "some cleared",
            });
        },
    );
}

/// A nickname that no record has, an empty block or a skipped TLV in front moves the places by one; zeros behind
/// the payload move none.
#[test]
fn what_stands_in_front_moves_the_places_and_padding_does_not() {
    run::cases(
        "what_stands_in_front_moves_the_places_and_padding_does_not",
        4,
        &[],
        &["a nickname", "a block", "a TLV", "padding"],
        |random, tally| {
            let pool = Pool::new(random);
            let payload = generate::good_payload(random, &pool);
            let mut table = generate::good_length_table(random, &pool);
            table.truncate(12 * RECORD);
            let ingress = generate::ingress(random, &pool);
            let front = behind_counts(&payload);
            let (name, more, step) = match random.below(3) {
                0 if (1..255).contains(&payload[0]) => {
                    let listed = [&[payload[0] + 1, 0, 0], &payload[1..]].concat();
                    ("a nickname", listed, [1, 0, 0])
                }
                1 if (1..255).contains(&payload[front - 1]) => {
                    let (before, blocks) = payload.split_at(front);
                    let mut more = [before, &[0, 2, 0, 1], blocks].concat();
                    more[front - 1] += 1;
                    ("a block", more, [0, 1, 0])
                }
                2 if payload[front - 1] == 0 => {
                    let (before, tlvs) = payload.split_at(front);
                    let value = random.bytes(3);
                    let more = [before, &[random.pick(&[0, 9, 255]), 3], &value, tlvs].concat();
                    ("a TLV", more, [0, 1, 1])
                }
                _ => {
                    let zeros = vec![0; random.length(1, 9)];
                    ("padding", [&payload[..], &zeros].concat(), [0, 0, 0])
                }
            };
            for slot in 0..(table.len() / RECORD) as u64 {
                let word = raw::why(ingress, &payload, slot, &table);
                let moved = raw::why(ingress, &more, slot, &table);
                let [nickname, label, mac] = step;
                let mac = if word & EVERY_MAC == 0 { mac } else { 0 };
                let expected = match is_cleared(word) {
                    true => word + (nickname << 8) + (label << 18) + (mac << 40),
                    false => word,
                };
                assert_eq!(moved, expected, "{name}, slot {slot}");
                if is_cleared(word) {
                    tally.situation(name);
                }
            }
        },
    );
}

/// The fuzz target of why, without libFuzzer, on random inputs.
#[test]
fn the_fuzz_target_of_why_finds_nothing_on_random_inputs() {
    let mut random = run::random("the_fuzz_target_of_why_finds_nothing_on_random_inputs");
    c_program::fuzz_target("why", 400, || {
        let pool = Pool::new(&mut random);
        let mut table = generate::table(&mut random, &pool);
        table.truncate(40 * RECORD);
        let (slot, _) = generate::portion(&mut random, table.len());
        [
            &generate::ingress(&mut random, &pool).to_be_bytes()[..],
            &slot.to_be_bytes(),
            &(table.len() as u16).to_be_bytes(),
            &table,
            &generate::payload(&mut random, &pool),
        ]
        .concat()
    });
}

#[test]
fn the_header_passes_null_areas_of_why_and_decodes_its_answers() {
    c_program::compile_and_run("null_why.c");
}
