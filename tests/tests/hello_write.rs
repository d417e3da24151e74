//! Smart-Hellos (document 02, 2026-13): payloads written from contents, compared through the C boundary, and read again.

use shinglebar_tests::c_program;
use shinglebar_tests::compare;
use shinglebar_tests::generate;
use shinglebar_tests::hellos::{self, area, bytes, NUMBERS, VECTOR};
use shinglebar_tests::random::Random;
use shinglebar_tests::reference::{Contents, Nickname, Parameters, SmartMac, Trees};
use shinglebar_tests::run;

/// What is read of a payload, in an area that has room.
fn read(random: &mut Random, payload: &[u8]) -> Vec<u8> {
    let mut contents = vec![0xEE; 16 * payload.len() + 128];
    let word = compare::hello_read(random, payload, &mut contents);
    let written = if word & 0xFF == 64 { word >> 8 } else { 0 };
    contents.truncate(written as usize);
    contents
}

/// Writes contents to an area that has room: the word, and what was written.
fn write(random: &mut Random, contents: &[u8]) -> (u64, Vec<u8>) {
    let mut out = vec![0xEE; 2 * contents.len() + 64];
    let word = compare::hello_write(random, contents, &mut out);
    let written = if word & 0xFF == 64 { word >> 8 } else { 0 };
    out.truncate(written as usize);
    (word, out)
}

#[test]
fn the_vector_of_the_request_is_written() {
    let mut random = run::random("the_vector_of_the_request_is_written");
    let payload = bytes(VECTOR);
    let length = payload.len() as u64;
    assert_eq!(
        write(&mut random, &area(&NUMBERS)),
        (64 | length << 8, payload)
    );
}

/// The places of counts in these numbers, and of fields with the first number that is over the field.
const COUNTS: [usize; 7] = [0, 3, 4, 8, 10, 13, 17];
const FIELDS: [(usize, u64); 12] = [
    (1, 1 << 16),
    (2, 1 << 16),
    (5, 1 << 8),
    (6, 1 << 16),
    (7, 1 << 16),
    (9, 1 << 16),
    (11, 1 << 16),
    (12, 1 << 16),
    (14, 2),
    (15, 2),
    (16, 1 << 12),
    (18, 1 << 48),
];

#[test]
fn contents_cut_at_every_length_are_25() {
    let mut random = run::random("contents_cut_at_every_length_are_25");
    let contents = area(&NUMBERS);
    for length in 0..contents.len() {
        assert_eq!(write(&mut random, &contents[..length]).0, 25, "{length}");
    }
    // and with any bytes behind them
    for more in 1..=24 {
        let longer = [&contents[..], &random.bytes(more)].concat();
        assert_eq!(write(&mut random, &longer).0, 25, "{more}");
    }
}

#[test]
fn contents_with_any_byte_changed_are_written_as_the_paper_says() {
    let mut random = run::random("contents_with_any_byte_changed_are_written_as_the_paper_says");
    let contents = area(&NUMBERS);
    let (mut written, mut refused) = (0, 0);
    for at in 0..contents.len() {
        for value in 0..=255 {
            let mut changed = contents.clone();
            changed[at] = value;
            let (word, out) = write(&mut random, &changed);
            match word & 0xFF {
                64 => {
                    written += 1;
                    assert_eq!(read(&mut random, &out), changed);
                }
                _ => {
                    refused += 1;
                    assert_eq!(word, 25);
                }
            }
        }
    }
    assert!(written > 5_000 && refused > 20_000, "{written} {refused}");
}

#[test]
fn every_number_at_the_end_of_its_field_is_written_and_the_next_is_25() {
    let mut random =
        run::random("every_number_at_the_end_of_its_field_is_written_and_the_next_is_25");
    let mut last = |numbers: &[u64]| write(&mut random, &area(numbers)).0 & 0xFF;
    for (at, over) in FIELDS {
        let mut numbers = NUMBERS;
        numbers[at] = over - 1;
        assert_eq!(last(&numbers), 64, "{at}");
        for number in [over, over + 1, 2 * over, 1 << 63, u64::MAX] {
            numbers[at] = number;
            assert_eq!(last(&numbers), 25, "{number} at {at}");
        }
    }
    // with F 1 the label's field is 24 bits
    let mut numbers = NUMBERS;
    numbers[14] = 1;
    for (label, expected) in [
        (0xFFF, 64),
        (0x1000, 64),
        (0xFF_FFFF, 64),
        (0x100_0000, 25),
        (1 << 32, 25),
        (u64::MAX, 25),
    ] {
        numbers[16] = label;
        assert_eq!(last(&numbers), expected, "{label:#x}");
    }
}

/// Counts that no area has room for, and such that a product with the size of an element would come out small.
#[test]
fn a_count_past_the_end_is_25_however_large() {
    let mut random = run::random("a_count_past_the_end_is_25_however_large");
    let third = u64::MAX / 3;
    for at in COUNTS {
        let right = NUMBERS[at];
        let huge = [third, third + 1, 2 * third, 2 * third + 1, 1 << 32];
        let powers = (56..64).flat_map(|bit| [1 << bit, (1 << bit) + right]);
        for count in (0..=130).chain(huge).chain(powers).chain([u64::MAX]) {
            if count == right {
                continue;
            }
            let mut numbers = NUMBERS;
            numbers[at] = count;
            let word = write(&mut random, &area(&numbers)).0;
            assert_eq!(word, 25, "{count} at {at}");
        }
    }
}

#[test]
fn smart_parameters_stand_once() {
    let mut random = run::random("smart_parameters_stand_once");
    let mut last = |numbers: &[u64]| write(&mut random, &area(numbers)).0 & 0xFF;
    let rest = &NUMBERS[3..];
    assert_eq!(last(&[&[0], rest].concat()), 26);
    assert_eq!(last(&[&[1, 30, 0], rest].concat()), 64);
    assert_eq!(last(&[&[2, 30, 0, 30, 0], rest].concat()), 25);
    assert_eq!(last(&[&[3, 30, 0, 30, 0, 7, 0], rest].concat()), 25);
    // 25 comes first, wherever it is
    for (at, over) in &FIELDS[2..] {
        let mut numbers = NUMBERS;
        numbers[*at] = *over;
        assert_eq!(last(&[&[0], &numbers[3..]].concat()), 25, "{at}");
    }
    assert_eq!(last(&[0, 0, 0]), 25);
    assert_eq!(last(&[0, 0, 0, 0]), 26);
    assert_eq!(last(&[0, 0, 0, 0, 0]), 25);
}

/// Sub-TLVs that fill a TLV to its last byte share it, and those that are a byte too long do not.
#[test]
fn a_tlv_takes_as_many_as_it_holds() {
    let mut random = run::random("a_tlv_takes_as_many_as_it_holds");
    let with = |trees: &[usize]| Contents {
        parameters: Some(Parameters {
            holding: 30,
            flags: 0,
        }),
        nicknames: Vec::new(),
        trees: trees
            .iter()
            .map(|&count| Trees {
                start: 1,
                nicknames: vec![0x1234; count],
            })
            .collect(),
        macs: Vec::new(),
    };
    // 5 bytes of head; a sub-TLV of 4 and 2 a nickname: 250 bytes are two of 60 and 61 nicknames
    for (trees, values) in [
        (&[60, 60][..], &[253][..]),
        (&[60, 61], &[255]),
        (&[61, 61], &[131, 131]),
        (&[61, 60], &[255]),
        (&[123], &[255]),
        (&[123, 0], &[255, 9]),
        (&[121, 0], &[255]),
        (&[0, 121], &[255]),
        (&[0, 122], &[9, 253]),
        (&[60, 61, 0], &[255, 9]),
    ] {
        let (word, out) = write(&mut random, &with(trees).area());
        assert_eq!(word & 0xFF, 64);
        let mut found = Vec::new();
        let mut rest = &out[11..];
        while let [242, length, after @ ..] = rest {
            found.push(usize::from(*length));
            rest = &after[usize::from(*length)..];
        }
        assert!(rest.is_empty());
        assert_eq!(found, values, "{trees:?}");
    }
}

/// The laws of both directions on the compiled library: what is read is never refused with 25 or 26, it is read again as the same, and it
/// comes back as it was exactly where the payload is in plain form.
#[test]
fn what_is_read_is_written_and_a_payload_in_plain_form_comes_back_as_it_was() {
    run::cases(
        "what_is_read_is_written_and_a_payload_in_plain_form_comes_back_as_it_was",
        1,
        &[(16, "refusal 16: area"), (64, "written")],
        &[
            "any",
            "in plain form: back as it was",
            "otherwise: not as it was",
            "longer than it was",
            "a flag of a TLV",
            "a reserved bit",
            "a TLV more",
            "a sub-TLV more",
            "two TLVs in the other order",
            "two TLVs made one",
            "a TLV made two",
        ],
        |random, tally| {
            let payload = match random.below(3) {
                0 => {
                    tally.situation("any");
                    hellos::payload(random).0
                }
                1 => hellos::contents(random).write().expect("good contents"),
                _ => {
                    let mut payload = hellos::contents(random).write().expect("good contents");
                    tally.situation(hellos::disturb(random, &mut payload));
                    payload
                }
            };
            let contents = read(random, &payload);
            if contents.is_empty() {
                return;
            }
            let (word, out) = write(random, &contents);
            assert_eq!(word & 0xFF, 64);
            let length = generate::area_length(random, out.len());
            let mut short = random.bytes(length);
            tally.word(compare::hello_write(random, &contents, &mut short));
            assert_eq!(read(random, &out), contents);
            assert!(hellos::is_plain(&out));
            let plain = hellos::is_plain(&payload);
            assert_eq!(out == payload, plain);
            tally.situation(if plain {
                "in plain form: back as it was"
            } else {
                "otherwise: not as it was"
            });
            if out.len() > payload.len() {
                tally.situation("longer than it was");
            }
        },
    );
}

/// As many of each kind as a payload of 9,000 bytes holds.
#[test]
fn contents_as_long_as_a_frame_are_written() {
    let mut random = run::random("contents_as_long_as_a_frame_are_written");
    for kind in 0..4 {
        let mut contents = Contents {
            parameters: Some(Parameters {
                holding: 30,
                flags: 0,
            }),
            ..Contents::default()
        };
        for at in 0..260 {
            match (kind, at % 3) {
                (0, _) | (3, 0) => contents.nicknames.push(hellos::nicknames(&mut random)),
                (1, _) | (3, 1) => contents.trees.push(hellos::trees(&mut random)),
                _ => contents.macs.push(hellos::smart_mac(&mut random)),
            }
        }
        let numbers = contents.area();
        let (word, out) = write(&mut random, &numbers);
        assert_eq!(word & 0xFF, 64);
        assert_eq!(read(&mut random, &out), numbers);
        assert!(hellos::is_plain(&out) && out.len() > 5_000, "{}", out.len());
    }
}

#[test]
fn contents_are_written_as_the_paper_says_and_read_back_the_same() {
    run::cases(
        "contents_are_written_as_the_paper_says_and_read_back_the_same",
        1,
        run::HELLO,
        &[
            "holding time",
            "flags",
            "priority",
            "root priority",
            "nickname",
            "50 records",
            "a number of a tree",
            "124 nicknames of trees",
            "F or M",
            "a label of more than 12 bits with F 0",
            "a label of more than 24 bits",
            "a MAC, or 42 of them",
            "no parameters",
            "no parameters, and 25 comes first",
            "two parameters",
            "length no multiple of 8",
            "numbers cut off",
            "numbers left over",
            "a number changed",
            "several TLVs of one kind",
        ],
        |random, tally| {
            let mut contents = hellos::contents(random);
            if random.one_in(4) {
                tally.situation(hellos::spoil(random, &mut contents));
                if random.one_in(4) {
                    contents.parameters = None;
                    tally.situation("no parameters, and 25 comes first");
                }
            } else if random.one_in(12) {
                contents.parameters = None;
                tally.situation("no parameters");
            }
            let mut numbers = contents.area();
            match random.below(24) {
                0 => {
                    numbers.truncate(random.length(0, numbers.len() - 1) | 1);
                    tally.situation("length no multiple of 8");
                }
                1 => {
                    numbers.truncate(8 * random.length(0, numbers.len() / 8));
                    tally.situation("numbers cut off");
                }
                2 => {
                    let more = 8 * random.length(1, 3);
                    numbers.extend(random.bytes(more));
                    tally.situation("numbers left over");
                }
                3 => {
                    let at = 8 * random.length(0, numbers.len() / 8 - 1);
                    let number = match random.below(3) {
                        0 => random.number(),
                        1 => random.below(4),
                        _ => u64::MAX / 3,
                    };
                    numbers[at..at + 8].copy_from_slice(&number.to_be_bytes());
                    tally.situation("a number changed");
                }
                4 => {
                    numbers[..8].copy_from_slice(&random.between(2, 4).to_be_bytes());
                    tally.situation("two parameters");
                }
                _ => {}
            }
            let (word, out) = write(random, &numbers);
            let length = generate::area_length(random, out.len());
            let mut short = random.bytes(length);
            tally.word(compare::hello_write(random, &numbers, &mut short));
            if word & 0xFF != 64 {
                return;
            }
            assert_eq!(read(random, &out), numbers);
            if out.len() > 255 + 2 + 255 + 2 + 255 + 2 {
                tally.situation("several TLVs of one kind");
            }
        },
    );
}

/// The longest lists that a TLV holds, and one more of each.
#[test]
fn a_list_as_long_as_a_tlv_holds_is_written_and_a_longer_one_is_25() {
    let mut random = run::random("a_list_as_long_as_a_tlv_holds_is_written_and_a_longer_one_is_25");
    let record = Nickname {
        priority: 255,
        root_priority: 0xFFFF,
        nickname: 0xFFFF,
    };
    let with = |records: usize, trees: usize, macs: usize| Contents {
        parameters: Some(Parameters {
            holding: 0xFFFF,
            flags: 0xFFFF,
        }),
        nicknames: vec![vec![record; records]],
        trees: vec![Trees {
            start: 0xFFFF,
            nicknames: vec![0xFFFF; trees],
        }],
        macs: vec![SmartMac {
            fine: 1,
            multihomed: 1,
            label: 0xFF_FFFF,
            macs: vec![0xFFFF_FFFF_FFFF; macs],
        }],
    };
    for (records, trees, macs, expected) in [
        (49, 123, 41, 64),
        (50, 123, 41, 25),
        (49, 124, 41, 25),
        (49, 123, 42, 25),
        (0, 0, 0, 64),
    ] {
        let contents = with(records, trees, macs).area();
        let (word, out) = write(&mut random, &contents);
        assert_eq!(word & 0xFF, expected);
        if expected == 64 {
            assert_eq!(read(&mut random, &out), contents);
        }
    }
}

#[test]
fn the_header_passes_null_areas() {
    c_program::compile_and_run("null_hello_write.c");
}

/// The fuzz target of writing, without libFuzzer, on random contents.
#[test]
fn the_fuzz_target_of_hello_write_finds_nothing_on_random_inputs() {
    let mut random = run::random("the_fuzz_target_of_hello_write_finds_nothing_on_random_inputs");
    c_program::fuzz_target("hello_write", 400, || {
        let mut contents = hellos::contents(&mut random);
        let length = contents.write().map_or(0, |out| out.len());
        match random.below(8) {
            0 => drop(hellos::spoil(&mut random, &mut contents)),
            1 => contents.parameters = None,
            _ => {}
        }
        let mut area = contents.area();
        if random.one_in(6) {
            generate::change_one_byte(&mut random, &mut area);
        }
        let room = match random.one_in(4) {
            true => random.number() as u16,
            false => generate::area_length(&mut random, length) as u16,
        };
        [&room.to_be_bytes()[..], &area].concat()
    });
}
