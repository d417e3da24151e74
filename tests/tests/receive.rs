//! Reading frames, compared through the C boundary.

use shinglebar_tests::c_program;
use shinglebar_tests::compare;
use shinglebar_tests::generate::{self, Pool};
use shinglebar_tests::reference::{self, Front, Record, Settings, RECORD};
use shinglebar_tests::run::{self, Tally};

/// Control addresses, in front and inside, and those beside them.
fn count_control(tally: &mut Tally, settings: &Settings, frame: &[u8], word: u64) {
    let front = reference::destination(frame);
    if reference::is_control(front) && word == 5 {
        tally.situation(match settings.compact {
            0 => "5, a control address in front, Compact off",
            _ => "5, a control address in front, Compact on",
        });
    }
    if word & 0xFF != 65 {
        return;
    }
    if front & !0x3F == 0x0180_C200_0000 {
        tally.situation("delivered, an address beside the control addresses in front");
    }
    if let Ok(fields) = reference::read_general(frame) {
        if reference::is_control(fields.inner_destination) {
            tally.situation("delivered, a control address inside");
        }
    }
}

fn count_answer(tally: &mut Tally, settings: &Settings, frame: &[u8], word: u64) {
    tally.word(word);
    let compact = reference::front(settings.port, frame) == Front::Compact;
    count_control(tally, settings, frame, word);
    match word & 0xFF {
        64 if compact => tally.situation("onward, Compact"),
        64 => tally.situation("onward, General"),
        65 => {
            tally.situation(match (compact, word >> 32 & 1) {
                (false, 0) => "delivered, General, VLAN",
                (false, _) => "delivered, General, fine-grained",
                (true, 0) => "delivered, Compact, VLAN",
                (true, _) => "delivered, Compact, fine-grained",
            });
            tally.situation(match word >> 24 & 3 {
                0 => "learned",
                1 => "refreshed",
                2 => "kept",
                _ => "full",
            });
            if frame.len() == 9216 {
                tally.situation("delivered from 9,216 bytes");
            }
        }
        66 if compact => tally.situation("other channel, Compact"),
        66 => tally.situation("other channel, General"),
        67 => {
            tally.situation(match (compact, word >> 8) {
                (false, 0) => "flushed none, General",
                (false, _) => "flushed some, General",
                (true, 0) => "flushed none, Compact",
                (true, _) => "flushed some, Compact",
            });
        }
        _ => {}
    }
}

const SITUATIONS: &[&str] = &[
    "5, a control address in front, Compact off",
    "5, a control address in front, Compact on",
    "delivered, an address beside the control addresses in front",
    "delivered, a control address inside",
    "onward, General",
    "onward, Compact",
    "delivered, General, VLAN",
    "delivered, General, fine-grained",
    "delivered, Compact, VLAN",
    "delivered, Compact, fine-grained",
    "learned",
    "refreshed",
    "kept",
    "full",
    "other channel, General",
    "other channel, Compact",
    "flushed none, General",
    "flushed some, General",
    "flushed none, Compact",
    "flushed some, Compact",
    "cut at every length",
    "one byte changed",
];

/// The pairs of label and MAC of the learned and configured records are all different: what stays so at a port with the setting none.
fn pairs_differ(table: &[u8]) -> bool {
    let mut pairs: Vec<(u8, u32, u64)> = Vec::new();
    for record in table.chunks_exact(RECORD) {
        if let Record::Learned(entry) | Record::Configured(entry) = reference::read(record) {
            pairs.push((entry.label.kind(), entry.label.number(), entry.mac));
        }
    }
    pairs.sort_unstable();
    pairs.windows(2).all(|pair| pair[0] != pair[1])
}

#[test]
fn receive_answers_and_leaves_the_areas_as_the_paper_says() {
    run::cases(
        "receive_answers_and_leaves_the_areas_as_the_paper_says",
        1,
        run::RECEIVE,
        SITUATIONS,
        |random, tally| {
            let pool = Pool::new(random);
            let settings = generate::settings(random, &pool);
            let frame = generate::frame(random, &pool, &settings);
            let bytes = generate::damage(random, frame.bytes());
            let mut table = generate::table(random, &pool);
            let native = 12 + frame.content.len();
            let out_length = generate::area_length(random, native);
            let out = random.bytes(out_length);

            let (mut after, mut written) = (table.clone(), out.clone());
            let word = compare::receive(random, &settings, &bytes, &mut after, &mut written);
            count_answer(tally, &settings, &bytes, word);

            // The same frame again, on the table that the first one left.
            let mut written = out.clone();
            let word = compare::receive(random, &settings, &bytes, &mut after, &mut written);
            count_answer(tally, &settings, &bytes, word);

            while table.len() > 300 * RECORD {
                table = generate::table(random, &pool);
            }
            if random.one_in(4) {
                tally.situation("cut at every length");
                for length in generate::cuts(random, bytes.len()) {
                    let cut = &bytes[..length];
                    let (mut after, mut written) = (table.clone(), out.clone());
                    let word = compare::receive(random, &settings, cut, &mut after, &mut written);
                    count_answer(tally, &settings, cut, word);
                }
            }
            for _ in 0..4 {
                tally.situation("one byte changed");
                let mut changed = bytes.clone();
                generate::change_one_byte(random, &mut changed);
                let (mut after, mut written) = (table.clone(), out.clone());
                let word = compare::receive(random, &settings, &changed, &mut after, &mut written);
                count_answer(tally, &settings, &changed, word);
            }
        },
    );
}

/// Frames one after another on one table: what each learns or flushes is there for the next.
#[test]
fn a_sequence_of_frames_is_read_as_the_paper_says() {
    run::cases(
        "a_sequence_of_frames_is_read_as_the_paper_says",
        10,
        &[
            (64, "onward"),
            (65, "delivered"),
            (66, "other channel"),
            (67, "flushed"),
            (4, "refusal 4: 22F3 not at its place"),
            (5, "refusal 5: not for this port"),
            (6, "refusal 6: cut"),
            (7, "refusal 7: V"),
            (8, "refusal 8: Hop Count"),
            (9, "refusal 9: nickname"),
            (10, "refusal 10: label"),
            (11, "refusal 11: group source"),
            (12, "refusal 12: M"),
            (13, "refusal 13: reserved destination"),
            (14, "refusal 14: channel"),
            (15, "refusal 15: flush payload corrupt"),
            (16, "refusal 16: output area"),
            (3, "refusal 3: frame length"),
        ],
        &[
            "learned",
            "refreshed",
            "kept",
            "full",
            "flushed some, General",
            "flushed some, Compact",
            "a table without equal pairs stays so",
        ],
        |random, tally| {
            let pool = Pool::new(random);
            let mut settings = generate::good_settings(random, &pool);
            let slots = random.length(1, 12);
            let mut table = vec![0; slots * RECORD];
            if random.one_in(2) {
                table = generate::good_length_table(random, &pool);
                table.truncate(slots * RECORD);
            }
            for _ in 0..random.length(2, 20) {
                settings.confidence = u32::from(random.pick(&pool.confidences));
                let frame = generate::frame(random, &pool, &settings);
                let out_length = generate::area_length(random, 12 + frame.content.len());
                let mut out = random.bytes(out_length);
                let differed = pairs_differ(&table);
                let bytes = generate::damage(random, frame.bytes());
                let word = compare::receive(random, &settings, &bytes, &mut table, &mut out);
                count_answer(tally, &settings, &bytes, word);
                if differed {
                    assert!(pairs_differ(&table), "two equal pairs after {word:#x}");
                    tally.situation("a table without equal pairs stays so");
                }
            }
        },
    );
}

/// Document 02, 2026-02: a flush frame padded to 60 bytes and by 0 to 20 zeros, in both formats, on the same table.
#[test]
fn a_padded_flush_frame_answers_and_leaves_what_the_frame_does() {
    const TO_60: [&str; 2] = ["General padded to 60", "Compact padded to 60"];
    run::cases(
        "a_padded_flush_frame_answers_and_leaves_what_the_frame_does",
        20,
        &[(15, "refusal 15: flush payload corrupt"), (67, "flushed")],
        &[
            TO_60[0],
            TO_60[1],
            "flushed some, General",
            "flushed some, Compact",
        ],
        |random, tally| {
            let pool = Pool::new(random);
            let mut settings = generate::good_settings(random, &pool);
            settings.compact = 1;
            let mut table = generate::good_length_table(random, &pool);
            table.truncate(20 * RECORD);
            let out = random.bytes(64);
            for (compact, name) in [false, true].into_iter().zip(TO_60) {
                let frame = generate::flush_frame(random, &pool, &settings, compact).bytes();
                if frame.len() > 9_216 - 20 {
                    continue;
                }
                let (mut left, mut written) = (table.clone(), out.clone());
                let given = compare::receive(random, &settings, &frame, &mut left, &mut written);
                count_answer(tally, &settings, &frame, given);
                let mut lengths: Vec<usize> = (0..=20).map(|zeros| frame.len() + zeros).collect();
                if frame.len() < 60 {
                    tally.situation(name);
                    lengths.push(60);
                }
                for length in lengths {
                    let mut padded = frame.clone();
                    padded.resize(length, 0);
                    let (mut after, mut area) = (table.clone(), out.clone());
                    let word = compare::receive(random, &settings, &padded, &mut after, &mut area);
                    count_answer(tally, &settings, &padded, word);
                    assert_eq!(area, out);
                    if given & 0xFF == 67 {
                        assert_eq!((word, &after), (given, &left), "padded to {length}");
                    }
                }
            }
        },
    );
}

/// A good frame of 9,215 to 9,217 bytes in both formats, with every area length around the native
/// frame's.
#[test]
fn the_longest_frames_are_read_as_the_paper_says() {
    let mut random = run::random("the_longest_frames_are_read_as_the_paper_says");
    let mut words = Vec::new();
    for compact in [false, true] {
        for length in [9215, 9216, 9217] {
            let pool = Pool::new(&mut random);
            let mut settings = generate::good_settings(&mut random, &pool);
            settings.compact = 1;
            let mut frame = generate::good_frame(&mut random, &pool, &settings);
            while frame.compact != compact
                || frame.content[..2] != [0x08, 0x00]
                || frame.inner_destination == settings.port
                || !(frame.multicast || u32::from(frame.egress) == settings.nickname)
                || u32::from(frame.ingress) == settings.nickname
            {
                frame = generate::good_frame(&mut random, &pool, &settings);
            }
            frame.set_length(&mut random, length);
            let bytes = frame.bytes();
            let native = 12 + frame.content.len();
            for out_length in [0, 12, native - 1, native, native + 1, 9216, 70_000] {
                let mut table = vec![0; 2 * RECORD];
                let mut out = random.bytes(out_length);
                let word = compare::receive(&mut random, &settings, &bytes, &mut table, &mut out);
                let expected = match (length, out_length >= native) {
                    (9217, _) => 3,
                    (_, false) => 16,
                    (_, true) => 65,
                };
                assert_eq!(word & 0xFF, expected, "length {length}, area {out_length}");
                words.push(word & 0xFF);
            }
        }
    }
    assert_eq!(words.len(), 42);
}

/// All settings of the small ranges, and the ends of the wide ones.
#[test]
fn the_ranges_of_the_settings_are_as_the_paper_says() {
    let mut random = run::random("the_ranges_of_the_settings_are_as_the_paper_says");
    let good = Settings {
        port: 0x0200_0000_00A1,
        inner: 0x0200_0000_00B1,
        nickname: 0x0102,
        compact: 1,
        confidence: 20,
        seconds: 0,
        multihomed: 0,
        smart: 0,
    };
    let frame = [
        0x02, 0, 0, 0, 0, 0x0D, 0x02, 0, 0, 0, 0, 0x01, 0x81, 0, 0, 0x0A, 0x22, 0xF3, 0x08, 0x05,
        0x01, 0x02, 0x12, 0x34, 0x08, 0x00, 0x45, 0x00,
    ];
    let mut refused = |settings: Settings| {
        let (mut table, mut out) = ([0; RECORD], [0; 40]);
        let word = compare::receive(&mut random, &settings, &frame, &mut table, &mut out);
        word == 1
    };
    assert!(!refused(good));
    for seconds in (0..=8300).chain([0xFFFF, 0x1_0000, 0x1_0000 + 300, u32::MAX]) {
        let expected = seconds != 0 && !(10..=8191).contains(&seconds);
        assert_eq!(refused(Settings { seconds, ..good }), expected);
    }
    for confidence in (0..=300).chain([0x100_0000, u32::MAX]) {
        assert_eq!(refused(Settings { confidence, ..good }), confidence > 255);
    }
    for compact in (0..=300).chain([0x100_0000, u32::MAX]) {
        assert_eq!(refused(Settings { compact, ..good }), compact > 1);
    }
    for nickname in (0..=0x1_0100).chain([0x100_0000, u32::MAX]) {
        let expected = nickname == 0 || nickname > 0xFFBF;
        assert_eq!(refused(Settings { nickname, ..good }), expected);
    }
    for bit in 0..64 {
        let bits = 1 << bit;
        let expected = bit == 40 || bit >= 48;
        let port = good.port ^ bits;
        assert_eq!(
            refused(Settings { port, ..good }),
            expected || port == good.inner
        );
        let inner = good.inner ^ bits;
        assert_eq!(
            refused(Settings { inner, ..good }),
            expected || inner == good.port
        );
    }
    assert!(refused(Settings {
        inner: good.port,
        ..good
    }));
}

#[test]
fn the_header_passes_null_areas_to_receive() {
    c_program::compile_and_run("null_receive.c");
}
