//! Smart-Hellos (document 02, 2026-13): payloads read into contents, compared through the C boundary.

use shinglebar_tests::c_program;
use shinglebar_tests::compare;
use shinglebar_tests::generate;
use shinglebar_tests::hellos::{self, area, bytes, NUMBERS, VECTOR};
use shinglebar_tests::random::Random;
use shinglebar_tests::reference::Contents;
use shinglebar_tests::run;

/// Reads a payload into an area that has room: the word, and what was written.
fn read(random: &mut Random, payload: &[u8]) -> (u64, Vec<u8>) {
    let mut contents = vec![0xEE; 16 * payload.len() + 128];
    let word = compare::hello_read(random, payload, &mut contents);
    let written = if word & 0xFF == 64 { word >> 8 } else { 0 };
    contents.truncate(written as usize);
    (word, contents)
}

#[test]
fn the_vector_of_the_request_is_read() {
    let mut random = run::random("the_vector_of_the_request_is_read");
    let payload = bytes(VECTOR);
    assert_eq!(read(&mut random, &payload), (64 | 152 << 8, area(&NUMBERS)));
}

#[test]
fn a_payload_cut_at_every_length_is_read_as_the_paper_says() {
    let mut random = run::random("a_payload_cut_at_every_length_is_read_as_the_paper_says");
    let payload = bytes(VECTOR);
    for length in 0..payload.len() {
        let (word, _) = read(&mut random, &payload[..length]);
        let whole = [11, 33].contains(&length);
        let expected = match length {
            0 => 26,
            _ if whole => 64,
            _ => 25,
        };
        assert_eq!(word & 0xFF, expected, "{length}");
    }
}

#[test]
fn a_payload_with_any_byte_changed_is_read_as_the_paper_says() {
    let mut random = run::random("a_payload_with_any_byte_changed_is_read_as_the_paper_says");
    let payload = bytes(VECTOR);
    let mut words = [0; 3];
    for at in 0..payload.len() {
        for value in 0..=255 {
            let mut changed = payload.clone();
            changed[at] = value;
            match read(&mut random, &changed).0 & 0xFF {
                25 => words[0] += 1,
                26 => words[1] += 1,
                _ => words[2] += 1,
            }
        }
    }
    assert!(words.iter().all(|&count| count > 100), "{words:?}");
}

/// Each refusal of reading, and what is skipped at its own level.
#[test]
fn every_length_that_a_type_does_not_allow_is_25() {
    let mut random = run::random("every_length_that_a_type_does_not_allow_is_25");
    let mut last = |payload: &[u8]| read(&mut random, payload).0 & 0xFF;
    let parameters = bytes("FB 09 00 0001 16 04 001E 0000");
    let with = |kind: u8, value: &[u8]| {
        let mut payload = parameters.clone();
        payload.extend([kind, value.len() as u8]);
        payload.extend(value);
        payload
    };
    let in_holder = |head: &[u8], kind: u8, length: usize| {
        let mut value = head.to_vec();
        value.extend([kind, length as u8]);
        value.extend(vec![0; length]);
        value
    };
    let (capability, geninfo): (&[u8], &[u8]) = (&[0; 5], &[0, 0, 1]);
    for length in 0..=60 {
        let good = |allowed: bool| if allowed { 64 } else { 25 };
        assert_eq!(
            last(&with(242, &vec![0; length])),
            good(length >= 5 && length % 2 == 1)
        );
        let value = in_holder(capability, 6, length);
        assert_eq!(last(&with(242, &value)), good(length % 5 == 0));
        let value = in_holder(capability, 8, length);
        assert_eq!(
            last(&with(242, &value)),
            good(length % 2 == 0 && length >= 2)
        );
        let value = in_holder(geninfo, 23, length);
        assert_eq!(
            last(&with(251, &value)),
            good(length >= 4 && (length - 4) % 6 == 0)
        );
        // other registries: skipped
        for (head, kind, holder) in [
            (capability, 22, 242),
            (capability, 23, 242),
            (geninfo, 6, 251),
            (geninfo, 8, 251),
        ] {
            assert_eq!(last(&with(holder, &in_holder(head, kind, length))), 64);
        }
        // another application, and what stands in front of its addresses
        assert_eq!(last(&with(251, &in_holder(&[0, 0, 2], 22, length))), 64);
    }
    for (flags, addresses) in [(0x04, 4), (0x08, 16), (0x0C, 20)] {
        for length in 0..=24 {
            let value = |application: u8| [vec![flags, 0, application], vec![0; length]].concat();
            // behind the addresses an empty piece of type 0 for each two bytes
            let whole = length >= addresses && (length - addresses) % 2 == 0;
            let expected = if whole { 64 } else { 25 };
            assert_eq!(last(&with(251, &value(1))), expected, "{flags} {length}");
            assert_eq!(last(&with(251, &value(2))), 64, "{flags} {length}");
        }
    }
    for length in 0..3 {
        assert_eq!(last(&with(251, &vec![0; length])), 25);
    }
    // Smart-Parameters twice, also in one TLV, and 25 before 26
    assert_eq!(last(&[parameters.clone(), parameters.clone()].concat()), 25);
    assert_eq!(
        last(&bytes("FB 0F 00 0001 16 04 001E 0000 16 04 001E 0000")),
        25
    );
    assert_eq!(last(&bytes("F2 04 00000000")), 25);
    assert_eq!(last(&bytes("F2 05 00000000 00")), 26);
    assert_eq!(last(&bytes("FB 09 00 0002 16 04 001E 0000")), 26);
    assert_eq!(last(&bytes("F2 0B 00000000 00 16 04 001E 0000")), 26);
}

#[test]
fn payloads_are_read_as_the_paper_says() {
    run::cases(
        "payloads_are_read_as_the_paper_says",
        1,
        run::HELLO,
        &[
            "as the writer makes it",
            "otherwise",
            "shorter than the writer makes it",
            "Smart-Parameters twice",
            "cut",
            "a byte changed",
        ],
        |random, tally| {
            let (mut payload, twice) = hellos::payload(random);
            match random.below(10) {
                0 => {
                    let length = random.length(0, payload.len());
                    payload.truncate(length);
                    tally.situation("cut");
                }
                1 if !payload.is_empty() => {
                    generate::change_one_byte(random, &mut payload);
                    tally.situation("a byte changed");
                }
                _ if twice => tally.situation("Smart-Parameters twice"),
                _ => {}
            }
            let (word, contents) = read(random, &payload);
            let length = generate::area_length(random, contents.len());
            let mut area = random.bytes(length);
            tally.word(compare::hello_read(random, &payload, &mut area));
            if word & 0xFF != 64 {
                return;
            }
            // what was read can be written, and is read again as the same
            let again = Contents::of_area(&contents).and_then(|contents| contents.write());
            let again = again.expect("what was read");
            assert_eq!(read(random, &again).1, contents);
            tally.situation(if again == payload {
                "as the writer makes it"
            } else {
                "otherwise"
            });
            if again.len() > payload.len() {
                tally.situation("shorter than the writer makes it");
            }
        },
    );
}

#[test]
fn written_contents_are_read_as_they_were() {
    run::cases(
        "written_contents_are_read_as_they_were",
        2,
        &[(16, "refusal 16: area"), (64, "written")],
        &["several TLVs of one kind", "nothing but Smart-Parameters"],
        |random, tally| {
            let contents = hellos::contents(random);
            let payload = contents.write().expect("contents that can be written");
            let numbers = contents.area();
            assert_eq!(read(random, &payload).1, numbers);
            let length = generate::area_length(random, numbers.len());
            let mut area = random.bytes(length);
            tally.word(compare::hello_read(random, &payload, &mut area));
            if payload.len() > 3 * (2 + 255) {
                tally.situation("several TLVs of one kind");
            }
            if numbers.len() == 48 {
                tally.situation("nothing but Smart-Parameters");
            }
        },
    );
}

/// The longest payload that a frame has room for, in the pieces that make the longest contents and in one that makes the shortest.
#[test]
fn a_payload_as_long_as_a_frame_is_read() {
    let mut random = run::random("a_payload_as_long_as_a_frame_is_read");
    let parameters = bytes("FB 09 00 0001 16 04 001E 0000");
    for piece in [
        bytes("F2 09 00000000 00 06 00 06 00"),
        bytes("F2 0D 00000000 00 08 02 0001 08 02 0001"),
        bytes("FB 0F 00 0001 17 04 80FFFFFF 17 04 00000FFF"),
        [vec![145, 255], vec![0; 255]].concat(),
    ] {
        let mut payload = parameters.clone();
        while payload.len() + piece.len() <= 9000 {
            payload.extend(&piece);
        }
        assert_eq!(read(&mut random, &payload).0 & 0xFF, 64);
    }
}

#[test]
fn the_header_passes_null_areas_and_walks_through_contents() {
    c_program::compile_and_run("null_hello.c");
}

/// The fuzz target of reading, without libFuzzer, on random payloads.
#[test]
fn the_fuzz_target_of_hello_finds_nothing_on_random_inputs() {
    let mut random = run::random("the_fuzz_target_of_hello_finds_nothing_on_random_inputs");
    c_program::fuzz_target("hello", 400, || {
        let (mut payload, _) = hellos::payload(&mut random);
        if random.one_in(6) && !payload.is_empty() {
            generate::change_one_byte(&mut random, &mut payload);
        }
        let room = match random.one_in(4) {
            true => random.number() as u16,
            false => {
                let read = Contents::read(&payload).map_or(0, |contents| contents.area().len());
                generate::area_length(&mut random, read) as u16
            }
        };
        [&room.to_be_bytes()[..], &payload].concat()
    });
}
