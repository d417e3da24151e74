//! Compacting, expanding, sending, compared through the C boundary.

use shinglebar_tests::boundary;
use shinglebar_tests::c_program;
use shinglebar_tests::compare::{self, hex};
use shinglebar_tests::generate::{self, Frame, Pool};
use shinglebar_tests::random::Random;
use shinglebar_tests::reference::{self, Front, Settings};
use shinglebar_tests::run::{self, Tally};

/// A frame to convert, mostly of the format wanted; often with a length near a limit.
fn frame(random: &mut Random, pool: &Pool, settings: &Settings, compact: bool) -> Frame {
    let mut frame = generate::frame(random, pool, settings);
    if !random.one_in(10) {
        frame.compact = compact;
    }
    if random.one_in(60) {
        let length = random.pick(&[9199, 9200, 9201, 9203, 9204, 9205, 9215, 9216, 9217]);
        frame.set_length(random, length);
    }
    frame
}

/// The frame, the frame cut at every length or not, and the frame with single bytes changed.
fn variants(random: &mut Random, bytes: &[u8]) -> Vec<Vec<u8>> {
    let mut variants = vec![bytes.to_vec()];
    if random.one_in(4) {
        for length in generate::cuts(random, bytes.len()) {
            variants.push(bytes[..length].to_vec());
        }
    }
    for _ in 0..4 {
        let mut changed = bytes.to_vec();
        generate::change_one_byte(random, &mut changed);
        variants.push(changed);
    }
    variants
}

/// Whether the inner destination of a General frame is a control address.
fn control_inside(frame: &[u8]) -> bool {
    reference::read_general(frame)
        .is_ok_and(|fields| reference::is_control(fields.inner_destination))
}

/// 5 with a control address in front, and what is written with one beside them there.
fn count_control(tally: &mut Tally, compact: &[u8], frame: &[u8], word: u64) {
    if word == 5 && reference::is_control(reference::destination(frame)) {
        tally.situation("5 for a control address in front");
    }
    if word & 0xFF == 64 {
        let front = reference::destination(compact);
        assert!(!reference::is_control(front));
        if front & !0x3F == 0x0180_C200_0000 {
            tally.situation("written, an address beside the control addresses");
        }
    }
}

fn count_written(tally: &mut Tally, frame: &[u8], word: u64) {
    let written = (word >> 8) as usize;
    match frame.len().abs_diff(written) {
        12 => tally.situation("written, 12 bytes of difference"),
        16 => tally.situation("written, 16 bytes of difference"),
        other => panic!("written with {other} bytes of difference"),
    }
    if frame.len() == 9216 || written == 9216 {
        tally.situation("written, at the limit of 9,216 bytes");
    }
}

#[test]
fn compact_answers_and_writes_as_the_paper_says() {
    run::cases(
        "compact_answers_and_writes_as_the_paper_says",
        1,
        run::COMPACT,
        &[
            "written, 12 bytes of difference",
            "written, 16 bytes of difference",
            "written, at the limit of 9,216 bytes",
            "written with Compact off",
            "17 for a Compact frame in front",
            "17 for the inner destination",
            "17 for a control address inside",
            "5 for a control address in front",
            "written, an address beside the control addresses",
        ],
        |random, tally| {
            let pool = Pool::new(random);
            let settings = generate::settings(random, &pool);
            let frame = frame(random, &pool, &settings, false);
            let bytes = generate::damage(random, frame.bytes());
            let shorter = if frame.outer_tag.is_some() { 16 } else { 12 };
            let out_length =
                generate::area_length(random, frame.bytes().len().saturating_sub(shorter));
            let out = random.bytes(out_length);
            for bytes in variants(random, &bytes) {
                let mut written = out.clone();
                let word = compare::compact(random, &settings, &bytes, &mut written);
                tally.word(word);
                count_control(tally, &written, &bytes, word);
                match word & 0xFF {
                    17 if reference::front(settings.port, &bytes) == Front::General
                        && control_inside(&bytes) =>
                    {
                        tally.situation("17 for a control address inside")
                    }
                    17 => tally.situation(match reference::front(settings.port, &bytes) {
                        Front::Compact => "17 for a Compact frame in front",
                        _ => "17 for the inner destination",
                    }),
                    64 => {
                        count_written(tally, &bytes, word);
                        if settings.compact == 0 {
                            tally.situation("written with Compact off");
                        }
                    }
                    _ => {}
                }
            }
        },
    );
}

#[test]
fn expand_answers_and_writes_as_the_paper_says() {
    run::cases(
        "expand_answers_and_writes_as_the_paper_says",
        1,
        run::EXPAND,
        &[
            "written, 12 bytes of difference",
            "written, 16 bytes of difference",
            "written, at the limit of 9,216 bytes",
            "written with Compact off",
            "written with M 0",
            "written with M 1",
            "3 for the frame",
            "3 for the result",
            "5 for a control address in front",
            "written, an address beside the control addresses",
        ],
        |random, tally| {
            let pool = Pool::new(random);
            let settings = generate::settings(random, &pool);
            let frame = frame(random, &pool, &settings, true);
            let bytes = generate::damage(random, frame.bytes());
            let (outer_source, tagged, tag) = generate::outer(random, &pool);
            let longer = if tagged == 1 { 16 } else { 12 };
            let out_length = generate::area_length(random, frame.bytes().len() + longer);
            let out = random.bytes(out_length);
            for bytes in variants(random, &bytes) {
                let mut written = out.clone();
                let word = compare::expand(
                    random,
                    &settings,
                    outer_source,
                    tagged,
                    tag,
                    &bytes,
                    &mut written,
                );
                tally.word(word);
                count_control(tally, &bytes, &bytes, word);
                match word & 0xFF {
                    3 if (14..=9216).contains(&bytes.len()) => tally.situation("3 for the result"),
                    3 => tally.situation("3 for the frame"),
                    64 => {
                        count_written(tally, &bytes, word);
                        tally.situation(match written[..6] {
                            [0x01, 0x80, 0xC2, 0, 0, 0x40] => "written with M 1",
                            _ => "written with M 0",
                        });
                        if settings.compact == 0 {
                            tally.situation("written with Compact off");
                        }
                    }
                    _ => {}
                }
            }
        },
    );
}

/// What sending would have given with a working area that is long enough, and whether the result would have had room in the one it had.
fn short_area(settings: &Settings, frame: &[u8], work: usize) -> &'static str {
    let mut long = vec![0; reference::WORKING_AREA];
    let word = reference::send(settings, frame, &mut long);
    match word & 0xFF {
        64 if (word >> 8) as usize <= work => "16, though the result has room",
        64 => "16, and the result has none",
        65 if settings.compact == 0 => "16, Compact off",
        65 => "16 for an inner destination that is not compacted",
        _ => "16 before a refusal of the frame",
    }
}

/// Areas of 0, 9,203, 9,204 and 9,216 bytes with good and bad settings and frames, Compact on and off, and inner destinations that may
/// and may not be compacted, each with each: the word, and the whole working area.
#[test]
fn send_gives_1_then_16_then_what_the_frame_gives() {
    run::cases(
        "send_gives_1_then_16_then_what_the_frame_gives",
        4,
        run::SEND,
        &["1", "16", "the frame is looked at"],
        |random, tally| {
            let pool = Pool::new(random);
            let good = generate::good_settings(random, &pool);
            let mut frame = generate::good_frame(random, &pool, &good);
            frame.compact = false;
            let mut stays = frame.clone();
            stays.inner_destination = random.pick(&[good.port, 0x0180_C200_0042, 0x0180_C200_0000]);
            let (frame, stays) = (frame.bytes(), stays.bytes());
            let damaged = generate::damage(random, frame.clone());
            let short = frame[..random.length(0, 13)].to_vec();
            let mut changed = frame.clone();
            generate::change_one_byte(random, &mut changed);
            let cut = frame[..random.length(14, frame.len())].to_vec();
            let mut compact = frame.clone();
            compact[5] ^= 0x80;
            let mut reserved = frame.clone();
            reserved[..6].copy_from_slice(&[0x01, 0x80, 0xC2, 0, 0, 0x41]);
            for compact_on in [0, 1] {
                let good = Settings {
                    compact: compact_on,
                    ..good
                };
                let bad = Settings { seconds: 9, ..good };
                for settings in [good, bad] {
                    for bytes in [
                        &frame, &stays, &damaged, &short, &changed, &cut, &compact, &reserved,
                    ] {
                        for length in [0, 9203, 9204, 9216] {
                            let mut work = random.bytes(length);
                            let word = compare::send(random, &settings, bytes, &mut work);
                            tally.word(word);
                            let expected = if settings.seconds == 9 {
                                Some(1)
                            } else {
                                (length < 9204).then_some(16)
                            };
                            match expected {
                                Some(refusal) => assert_eq!(word, refusal),
                                None => assert!(word != 1 && word != 16, "{word}"),
                            }
                            tally.situation(match expected {
                                Some(1) => "1",
                                Some(_) => "16",
                                None => "the frame is looked at",
                            });
                        }
                    }
                }
            }
        },
    );
}

#[test]
fn send_answers_and_writes_as_the_paper_says() {
    run::cases(
        "send_answers_and_writes_as_the_paper_says",
        1,
        run::SEND,
        &[
            "written, 12 bytes of difference",
            "written, 16 bytes of difference",
            "written, at the limit of 9,216 bytes",
            "the frame itself, Compact off",
            "the frame itself for the inner destination",
            "the frame itself for a control address inside",
            "written, a working area of 9,204 bytes",
            "16 before a refusal of the frame",
            "16, Compact off",
            "16 for an inner destination that is not compacted",
            "16, though the result has room",
            "5 for a control address in front",
            "written, an address beside the control addresses",
        ],
        |random, tally| {
            let pool = Pool::new(random);
            let settings = generate::settings(random, &pool);
            let frame = frame(random, &pool, &settings, false);
            let bytes = generate::damage(random, frame.bytes());
            let shorter = if frame.outer_tag.is_some() { 16 } else { 12 };
            let result = frame.bytes().len().saturating_sub(shorter);
            let result = generate::area_length(random, result);
            let work_length = generate::working_length(random, result);
            let work = random.bytes(work_length);
            for bytes in variants(random, &bytes) {
                let mut written = work.clone();
                let word = compare::send(random, &settings, &bytes, &mut written);
                tally.word(word);
                count_control(tally, &written, &bytes, word);
                if word != 1 {
                    assert_eq!(word == 16, work.len() < reference::WORKING_AREA);
                }
                if word & 0xFF == 64 {
                    count_written(tally, &bytes, word);
                    if work.len() == reference::WORKING_AREA {
                        tally.situation("written, a working area of 9,204 bytes");
                    }
                }
                if word == 16 {
                    assert_eq!(written, work);
                    tally.situation(short_area(&settings, &bytes, work.len()));
                }
                if word == 65 {
                    assert_eq!(written, work);
                    if settings.compact == 1 && control_inside(&bytes) {
                        tally.situation("the frame itself for a control address inside");
                    }
                    tally.situation(match settings.compact {
                        0 => "the frame itself, Compact off",
                        _ => "the frame itself for the inner destination",
                    });
                }
            }
        },
    );
}

#[test]
fn what_expand_writes_compacts_to_the_frame_it_came_from() {
    run::cases(
        "what_expand_writes_compacts_to_the_frame_it_came_from",
        4,
        &[(64, "written")],
        &["compacted again"],
        |random, tally| {
            let pool = Pool::new(random);
            let settings = generate::good_settings(random, &pool);
            let mut frame = generate::good_frame(random, &pool, &settings);
            frame.compact = true;
            let bytes = frame.bytes();
            let (mut out, mut again) = (random.bytes(9216), random.bytes(9204));
            let (outer_source, tagged, tag) = generate::outer(random, &pool);
            let word = boundary::expand(
                random,
                &settings,
                outer_source,
                tagged,
                tag,
                &bytes,
                &mut out,
            );
            if word & 0xFF != 64 {
                return;
            }
            tally.word(word);
            let general = &out[..(word >> 8) as usize];
            let word = boundary::compact(random, &settings, general, &mut again);
            assert_eq!(word, 64 | (bytes.len() as u64) << 8, "{}", hex(&bytes));
            assert_eq!(again[..bytes.len()], bytes);
            tally.situation("compacted again");
        },
    );
}

#[test]
fn the_header_passes_null_areas_to_the_conversions() {
    c_program::compile_and_run("null_convert.c");
}
