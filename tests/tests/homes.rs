//! Two homes for one scanner (document 02, 2026-12): learning from marked and unmarked frames, the table that stays apart, and older
//! tables widened, compared through the C boundary.

use shinglebar_tests::compare;
use shinglebar_tests::generate::{self, Frame, Pool, Raw, MARK};
use shinglebar_tests::random::Random;
use shinglebar_tests::reference::{
    self, homes_are_apart, read, write, Entry, Label, Record, Settings, OLD_RECORD, RECORD, SLOTS,
    TABLE,
};
use shinglebar_tests::run::{self, Answers, Tally};

/// Reading at a port without a map; where no bit marks frames, the call without the setting does the same.
fn receive(
    lender: &mut Random,
    settings: &Settings,
    frame: &[u8],
    table: &mut [u8],
    out: &mut [u8],
) -> u64 {
    let (mut same_table, mut same_out) = (table.to_vec(), out.to_vec());
    let word = compare::receive_port(lender, settings, &[], frame, table, out);
    if settings.multihomed == 0 {
        let same = compare::receive(lender, settings, frame, &mut same_table, &mut same_out);
        assert!(same == word && same_table == table && same_out == out);
    }
    word
}

const PORT: Settings = Settings {
    port: 0x0200_0000_00A1,
    inner: 0x0200_0000_00B1,
    nickname: 0x0102,
    compact: 1,
    confidence: 20,
    seconds: 300,
    multihomed: 1,
    smart: 0,
};

/// The same with another bit and confidence.
fn port(multihomed: u32, confidence: u8) -> Settings {
    Settings {
        confidence: u32::from(confidence),
        multihomed,
        ..PORT
    }
}

/// Three switches, and two stations of two labels: few pairs, many homes.
const NICKNAMES: [u16; 3] = [0x0001, 0x1234, 0xFFBF];
const LABELS: [Label; 2] = [Label::Vlan(10), Label::Fine(10)];
const MACS: [u64; 2] = [0x0200_0000_0001, 0x0200_0000_0002];
const CONFIDENCES: [u8; 5] = [0, 19, 20, 21, 255];

/// The two R bits as they lie in the header's first byte: V 2 bits, R 2, M 1, ..
const FIRST: u8 = 0b10;
const SECOND: u8 = 0b01;

fn tag(label: Label) -> Vec<u8> {
    match label {
        Label::Vlan(vlan) => [0x8100, vlan].map(u16::to_be_bytes).concat(),
        Label::Fine(label) => {
            let (high, low) = ((label >> 12) as u16, (label & 0xFFF) as u16);
            [0x893B, high, 0x893B, low].map(u16::to_be_bytes).concat()
        }
    }
}

/// A General frame to the port from a station behind a switch, with these two R bits.
fn frame(label: Label, mac: u64, nickname: u16, reserved: u8) -> Frame {
    Frame {
        compact: false,
        outer_destination: PORT.port,
        outer_source: 0x0200_0000_00B2,
        outer_tag: None,
        trill: 0x22F3,
        version: 0,
        reserved,
        multicast: false,
        option_length: 0,
        hop_count: 5,
        egress: PORT.nickname as u16,
        ingress: nickname,
        options: Vec::new(),
        inner_destination: 0x0200_0000_000D,
        inner_source: mac,
        label: tag(label),
        content: vec![0x08, 0x00, 0x45, 0x00],
    }
}

fn entry(nickname: u16, confidence: u8, multihomed: bool) -> Entry {
    Entry {
        label: LABELS[0],
        mac: MACS[0],
        nickname,
        confidence,
        seconds: 100,
        multihomed,
    }
}

fn learned(nickname: u16, confidence: u8, multihomed: bool) -> [u8; RECORD] {
    write(true, &entry(nickname, confidence, multihomed))
}

fn configured(nickname: u16, multihomed: bool) -> [u8; RECORD] {
    write(false, &entry(nickname, 0, multihomed))
}

/// What the port learns: 300 seconds, confidence 20.
fn taught(nickname: u16, multihomed: bool) -> [u8; RECORD] {
    write(
        true,
        &Entry {
            seconds: 300,
            ..entry(nickname, 20, multihomed)
        },
    )
}

const FREE: [u8; RECORD] = [0; RECORD];
const SPOILT: [u8; RECORD] = [0xC0; RECORD];
const LEARNED: u64 = 0;
const REFRESHED: u64 = 1;
const KEPT: u64 = 2;
const FULL: u64 = 3;
const MARKED: bool = true;
const UNMARKED: bool = false;

/// A frame of the first pair from a nickname, marked or not, on a table: what learning answers, and the table after.
fn check(
    table: &[[u8; RECORD]],
    (nickname, marked): (u16, bool),
    learning: u64,
    after: &[[u8; RECORD]],
) {
    let reserved = if marked { FIRST } else { SECOND };
    let general = frame(LABELS[0], MACS[0], nickname, reserved);
    for compact in [false, true] {
        let bytes = Frame {
            compact,
            ..general.clone()
        }
        .bytes();
        if !marked {
            let (mut given, port) = (table.concat(), port(0, 20));
            let word = receive(&mut Random::new(1), &port, &bytes, &mut given, &mut [0; 16]);
            assert_eq!((word & 0xFF, word >> 24 & 3), (65, learning), "{table:x?}");
            assert!(given == after.concat(), "{given:x?}");
        }
        let mut given = table.concat();
        let word = receive(&mut Random::new(1), &PORT, &bytes, &mut given, &mut [0; 16]);
        assert_eq!((word & 0xFF, word >> 24 & 3), (65, learning), "{table:x?}");
        assert!(given == after.concat(), "{given:x?}");
    }
}

/// "If a configured record of the frame's label and MAC exists, nothing changes and the answer is kept."
#[test]
fn a_configured_record_in_any_slot_keeps_everything() {
    let [one, two, three] = NICKNAMES;
    for marked in [MARKED, UNMARKED] {
        for table in [
            vec![configured(two, UNMARKED), FREE],
            vec![FREE, configured(two, UNMARKED)],
            vec![learned(one, 0, MARKED), configured(two, UNMARKED)],
            vec![learned(one, 0, MARKED), FREE, configured(two, MARKED)],
            vec![learned(one, 0, UNMARKED), configured(two, UNMARKED), FREE],
        ] {
            for nickname in [one, two, three] {
                check(&table, (nickname, marked), KEPT, &table);
            }
        }
    }
}

/// "Otherwise a marked frame is judged by confidence against the lowest unmarked learned record of that pair, and marks it when it
/// overwrites it"
#[test]
fn a_marked_frame_is_judged_against_the_lowest_unmarked_record_and_marks_it() {
    let [one, two, three] = NICKNAMES;
    for confidence in [0, 19, 20] {
        let there = learned(one, confidence, UNMARKED);
        check(&[there], (two, MARKED), REFRESHED, &[taught(two, MARKED)]);
        check(&[there], (one, MARKED), REFRESHED, &[taught(one, MARKED)]);
    }
    // kept by it, a frame does not go on to its own home or to a free slot
    let there = learned(one, 21, UNMARKED);
    check(&[there, FREE], (two, MARKED), KEPT, &[there, FREE]);
    let own = learned(two, 0, MARKED);
    check(&[own, there], (two, MARKED), KEPT, &[own, there]);
    // the lowest of several, and before its own home in a lower slot
    let others = [learned(three, 0, UNMARKED), learned(one, 255, UNMARKED)];
    check(
        &[own, others[0], others[1]],
        (two, MARKED),
        REFRESHED,
        &[own, taught(two, MARKED), others[1]],
    );
}

/// "with none, against the lowest marked record of the pair with the same nickname; with none of those, it fills a free slot, marked"
#[test]
fn a_marked_frame_is_judged_against_its_own_home_or_fills_a_free_slot() {
    let [one, two, three] = NICKNAMES;
    let (first, second) = (learned(one, 255, MARKED), learned(two, 20, MARKED));
    check(
        &[first, second],
        (two, MARKED),
        REFRESHED,
        &[first, taught(two, MARKED)],
    );
    check(&[first, second], (one, MARKED), KEPT, &[first, second]);
    check(
        &[first, SPOILT, FREE, FREE, second],
        (three, MARKED),
        LEARNED,
        &[first, SPOILT, taught(three, MARKED), FREE, second],
    );
    check(&[first, second], (three, MARKED), FULL, &[first, second]);
    check(&[FREE], (one, MARKED), LEARNED, &[taught(one, MARKED)]);
}

/// "An unmarked frame is judged against the pair's lowest record; if that is overwritten it becomes unmarked and the pair's other learned
/// records are cleared, and if it is kept, so are all; with no record it fills a free slot."
#[test]
fn an_unmarked_frame_makes_the_lowest_record_the_only_one_or_all_are_kept() {
    let [one, two, three] = NICKNAMES;
    let (low, high) = (learned(one, 20, MARKED), learned(two, 255, MARKED));
    for nickname in [one, two, three] {
        check(
            &[FREE, low, SPOILT, high],
            (nickname, UNMARKED),
            REFRESHED,
            &[FREE, taught(nickname, UNMARKED), SPOILT, FREE],
        );
    }
    check(
        &[high, low, FREE],
        (one, UNMARKED),
        KEPT,
        &[high, low, FREE],
    );
    // records of another label or address stay
    let label = write(
        true,
        &Entry {
            label: LABELS[1],
            ..entry(two, 0, UNMARKED)
        },
    );
    let station = write(
        true,
        &Entry {
            mac: MACS[1],
            ..entry(two, 0, MARKED)
        },
    );
    check(
        &[label, low, station, high],
        (three, UNMARKED),
        REFRESHED,
        &[label, taught(three, UNMARKED), station, FREE],
    );
    check(
        &[label, FREE],
        (one, UNMARKED),
        LEARNED,
        &[label, taught(one, UNMARKED)],
    );
    check(&[label], (one, UNMARKED), FULL, &[label]);
}

/// "A setting says which of the two R bits it is, or none."
#[test]
fn the_setting_says_which_bit_marks_a_frame() {
    let mut random = Random::new(1);
    for (multihomed, bit) in [(0, 0), (1, FIRST), (2, SECOND)] {
        let settings = port(multihomed, 20);
        for reserved in 0..4 {
            let mut table = FREE;
            let bytes = frame(LABELS[0], MACS[0], NICKNAMES[0], reserved).bytes();
            let first = 0x20 * (reserved >> 1) | 0x10 * (reserved & 1);
            assert_eq!(bytes[14], first);
            let out = &mut [0; 16];
            receive(&mut random, &settings, &bytes, &mut table, out);
            let marked = reserved & bit != 0;
            assert_eq!(
                table,
                taught(NICKNAMES[0], marked),
                "{multihomed} {reserved}"
            );
        }
    }
    for multihomed in (3..=600).chain([0x101, 0x102, 1 << 16, 1 << 31, u32::MAX]) {
        let settings = port(multihomed, 20);
        let word = receive(&mut random, &settings, &[], &mut [], &mut []);
        assert_eq!(word, 1, "{multihomed}");
    }
}

/// State 0 with the multihomed bit is spoilt, and so is any record with one of the last seven bits.
#[test]
fn the_last_byte_of_a_record_is_the_mark_alone() {
    let mut random = Random::new(1);
    for last in 0..=255 {
        let good = last & !MARK == 0;
        let mut bytes = taught(NICKNAMES[0], UNMARKED);
        bytes[RECORD - 1] = last;
        let spoilt = compare::spoilt(&mut random, &bytes) == 64;
        assert_eq!(spoilt, !good, "{last:#x}");
        let found = compare::lookup(&mut random, 0, 10, MACS[0], &bytes);
        assert_eq!(found == 65, !good, "{last:#x}");
        let mut aged = bytes;
        compare::age(&mut random, 300, &mut aged);
        assert_eq!(aged == FREE, good, "{last:#x}");
        let mut flushed = bytes;
        let count = compare::flush(&mut random, 1, &[0, 0, 6, 0], &mut flushed);
        assert_eq!(count, if good { 67 | 1 << 8 } else { 67 }, "{last:#x}");
        let mut free = FREE;
        free[RECORD - 1] = last;
        assert_eq!(compare::spoilt(&mut random, &free) == 64, last != 0);
    }
}

// Random tables and calls

/// A table of few pairs and many homes: free, spoilt, configured and learned records of both marks and all confidences.
fn homes_table(random: &mut Random) -> Vec<u8> {
    let slots = match random.below(40) {
        0 => random.length(40, 300),
        1..=8 => random.length(1, 3),
        _ => random.length(4, 16),
    };
    let (pairs, free) = (random.length(1, 2), random.below(5));
    let mut table = Vec::new();
    for _ in 0..slots {
        let mut raw = Raw {
            state: if random.one_in(12) { 2 } else { 1 },
            kind: 0,
            label: 10,
            mac: random.pick(&MACS[..pairs]),
            nickname: random.pick(&NICKNAMES),
            confidence: random.pick(&CONFIDENCES),
            seconds: random.pick(&[0, 1, 99, 100, 101, 8191]),
            last: if random.one_in(3) { 0 } else { MARK },
        };
        raw.kind = u8::from(pairs == 2 && random.one_in(3));
        match random.below(16) {
            0 => raw.last |= random.between(1, 0x7F) as u8,
            1 => raw.state = random.pick(&[0, 3]),
            number if number < 2 + free => {
                table.extend(FREE);
                continue;
            }
            _ => {}
        }
        table.extend(raw.bytes());
    }
    table
}

/// Frees the records, from the highest on, that keep a table from being apart.
fn make_apart(table: &mut [u8]) {
    for slot in (0..table.len() / RECORD).rev() {
        if homes_are_apart(&table[slot * RECORD..]) {
            continue;
        }
        table[slot * RECORD..][..RECORD].fill(0);
    }
}

/// What the learned and configured records of a pair are, for the counts of situations only.
struct Pair {
    configured: Vec<usize>,
    unmarked: Vec<(usize, Entry)>,
    marked: Vec<(usize, Entry)>,
}

impl Pair {
    fn of(table: &[u8], label: Label, mac: u64) -> Pair {
        let mut pair = Pair {
            configured: Vec::new(),
            unmarked: Vec::new(),
            marked: Vec::new(),
        };
        for (slot, bytes) in table.chunks_exact(RECORD).enumerate() {
            match read(bytes) {
                Record::Configured(entry) if (entry.label, entry.mac) == (label, mac) => {
                    pair.configured.push(slot);
                }
                Record::Learned(entry) if (entry.label, entry.mac) == (label, mac) => {
                    let list = match entry.multihomed {
                        true => &mut pair.marked,
                        false => &mut pair.unmarked,
                    };
                    list.push((slot, entry));
                }
                _ => {}
            }
        }
        pair
    }

    fn records(&self) -> usize {
        self.configured.len() + self.unmarked.len() + self.marked.len()
    }

    fn lowest(&self) -> Option<usize> {
        let learned = self
            .unmarked
            .iter()
            .chain(&self.marked)
            .map(|(slot, _)| slot);
        learned.chain(&self.configured).min().copied()
    }
}

const SITUATIONS: &[&str] = &[
    "kept by the lowest record, which is configured",
    "kept by a configured record above others",
    "marked: over an unmarked record",
    "marked: over an unmarked record, its own home stands too",
    "marked: kept by an unmarked record",
    "marked: kept by an unmarked record, its own home would give way",
    "marked: over its own home, others stand",
    "marked: kept by its own home",
    "marked: into a free slot, other homes stand",
    "marked: into a free slot, the first home",
    "marked: full",
    "unmarked: over the lowest record, several others cleared",
    "unmarked: over the lowest record, another cleared",
    "unmarked: over a marked record, the only one",
    "unmarked: over an unmarked record, the only one",
    "unmarked: kept, and so are others",
    "unmarked: kept by the only record",
    "unmarked: into a free slot",
    "unmarked: full",
    "the other R bit alone: not marked",
    "the setting none, an R bit set: not marked",
    "apart, and apart after reading",
    "apart, and apart after ageing",
    "apart, and apart after a flush",
    "not apart",
];

fn count_learning(
    tally: &mut Tally,
    before: &[u8],
    (label, mac, nickname): (Label, u64, u16),
    marked: bool,
    learning: u64,
) {
    let pair = Pair::of(before, label, mac);
    let several = pair.records() > 1;
    let own = pair.marked.iter().find(|(_, e)| e.nickname == nickname);
    let alone_marked = pair.unmarked.is_empty();
    tally.situation(match (marked, learning) {
        _ if !pair.configured.is_empty() => {
            assert_eq!(learning, KEPT);
            match pair.configured.first().copied() == pair.lowest() {
                true => "kept by the lowest record, which is configured",
                false => "kept by a configured record above others",
            }
        }
        (true, REFRESHED) if !alone_marked && own.is_some() => {
            "marked: over an unmarked record, its own home stands too"
        }
        (true, REFRESHED) if !alone_marked => "marked: over an unmarked record",
        (true, KEPT) if !alone_marked && own.is_some_and(|(_, e)| e.confidence <= 20) => {
            "marked: kept by an unmarked record, its own home would give way"
        }
        (true, KEPT) if !alone_marked => "marked: kept by an unmarked record",
        (true, REFRESHED) if several => "marked: over its own home, others stand",
        (true, REFRESHED) => "marked: over its own home, the only one",
        (true, KEPT) => "marked: kept by its own home",
        (true, LEARNED) if pair.records() > 0 => "marked: into a free slot, other homes stand",
        (true, LEARNED) => "marked: into a free slot, the first home",
        (true, _) => "marked: full",
        (false, REFRESHED) if pair.records() > 2 => {
            "unmarked: over the lowest record, several others cleared"
        }
        (false, REFRESHED) if several => "unmarked: over the lowest record, another cleared",
        (false, REFRESHED) if alone_marked => "unmarked: over a marked record, the only one",
        (false, REFRESHED) => "unmarked: over an unmarked record, the only one",
        (false, KEPT) if several => "unmarked: kept, and so are others",
        (false, KEPT) => "unmarked: kept by the only record",
        (false, LEARNED) => "unmarked: into a free slot",
        (false, _) => "unmarked: full",
    });
}

/// The answers of the calls of a run: readings of good frames, ageings and flushes on tables of good length.
const ANSWERS: Answers = &[(64, "aged"), (65, "delivered"), (67, "flushed")];

/// A frame from one of three nicknames, in either format, marked or not, at a port with any setting and confidence.
fn read_one(random: &mut Random, tally: &mut Tally, table: &mut [u8]) -> u64 {
    let multihomed = random.pick(&[0, 0, 1, 2]);
    let confidence = random.pick(&CONFIDENCES);
    let settings = port(multihomed, confidence);
    let (label, mac) = (random.pick(&LABELS), random.pick(&MACS));
    let (nickname, reserved) = (random.pick(&NICKNAMES), random.below(4) as u8);
    let mut sent = frame(label, mac, nickname, reserved);
    sent.compact = random.one_in(2);
    sent.multicast = random.one_in(4);
    if sent.multicast {
        sent.outer_destination = 0x0180_C200_0040;
    }
    let before = table.to_vec();
    let (mut out, bytes) = ([0; 16], sent.bytes());
    let word = receive(random, &settings, &bytes, table, &mut out);
    assert_eq!(word & 0xFF, 65);
    let marked = match settings.multihomed {
        1 => reserved & FIRST != 0,
        2 => reserved & SECOND != 0,
        _ => false,
    };
    if !marked && reserved != 0 {
        tally.situation(match settings.multihomed {
            0 => "the setting none, an R bit set: not marked",
            _ => "the other R bit alone: not marked",
        });
    }
    if confidence == 20 {
        let key = (label, mac, nickname);
        count_learning(tally, &before, key, marked, word >> 24 & 3);
    }
    word
}

#[test]
fn homes_are_learned_as_the_paper_says_and_stay_apart() {
    run::cases(
        "homes_are_learned_as_the_paper_says_and_stay_apart",
        1,
        ANSWERS,
        SITUATIONS,
        |random, tally| {
            let mut table = homes_table(random);
            if !random.one_in(3) {
                make_apart(&mut table);
                assert!(homes_are_apart(&table));
            }
            for _ in 0..random.length(1, 12) {
                let apart = homes_are_apart(&table);
                let (word, situation) = match random.below(12) {
                    0 => {
                        let seconds = random.pick(&[0, 1, 98, 99, 100, 300]);
                        let word = compare::age(random, seconds, &mut table);
                        (word, "apart, and apart after ageing")
                    }
                    1 => {
                        let nickname = random.pick(&NICKNAMES);
                        let payload: &[u8] = match random.below(3) {
                            0 => &[0, 1, 0, 10, 0, 10],
                            1 => &[0, 0, 6, 0, 7, 6, 2, 0, 0, 0, 0, 1],
                            _ => &[0, 0, 6, 0],
                        };
                        let ingress = u32::from(nickname);
                        let word = compare::flush(random, ingress, payload, &mut table);
                        (word, "apart, and apart after a flush")
                    }
                    _ => {
                        let word = read_one(random, tally, &mut table);
                        (word, "apart, and apart after reading")
                    }
                };
                tally.word(word);
                if !apart {
                    tally.situation("not apart");
                } else {
                    assert!(homes_are_apart(&table), "{}", compare::hex(&table));
                    tally.situation(situation);
                }
            }
        },
    );
}

/// Any frames, good and damaged, on any tables with the setting on: what the older comparison does at a port without it.
#[test]
fn reading_with_the_setting_answers_as_the_paper_says() {
    run::cases(
        "reading_with_the_setting_answers_as_the_paper_says",
        1,
        &[],
        &[
            "learned",
            "refreshed",
            "kept",
            "full",
            "flushed",
            "refused",
            "apart",
        ],
        |random, tally| {
            let pool = Pool::new(random);
            let mut settings = generate::settings(random, &pool);
            settings.multihomed = random.pick(&[1, 2]);
            let mut table = generate::table(random, &pool);
            for _ in 0..4 {
                let frame = generate::frame(random, &pool, &settings);
                let room = generate::area_length(random, 12 + frame.content.len());
                let mut out = random.bytes(room);
                let bytes = generate::damage(random, frame.bytes());
                let apart = table.len() <= 40 * RECORD && homes_are_apart(&table);
                let word = receive(random, &settings, &bytes, &mut table, &mut out);
                if apart {
                    assert!(homes_are_apart(&table), "{}", compare::hex(&table));
                    tally.situation("apart");
                }
                match (word & 0xFF, word >> 24 & 3) {
                    (65, LEARNED) => tally.situation("learned"),
                    (65, REFRESHED) => tally.situation("refreshed"),
                    (65, KEPT) => tally.situation("kept"),
                    (65, _) => tally.situation("full"),
                    (67, _) => tally.situation("flushed"),
                    (..=63, _) => tally.situation("refused"),
                    _ => {}
                }
            }
        },
    );
}

// Widening

/// An older table of the pool: its records are those of a table, without the last byte.
fn narrowed(table: &[u8]) -> Vec<u8> {
    let records = table.chunks_exact(RECORD);
    records
        .flat_map(|record| record[..OLD_RECORD].to_vec())
        .collect()
}

fn widened(old: &[u8]) -> Vec<u8> {
    let mut table = vec![0xFF; old.len() / OLD_RECORD * RECORD];
    let word = reference::widen(old, &mut table);
    assert_eq!(word, 64 | (table.len() as u64) << 8);
    table
}

#[test]
fn widening_answers_and_writes_as_the_paper_says() {
    run::cases(
        "widening_answers_and_writes_as_the_paper_says",
        1,
        run::WIDEN,
        &[
            "2 for the length 0",
            "2 for no multiple",
            "2 for over 57,344",
            "2 before 16",
            "a length that fits both widths",
            "57,344 bytes",
            "the area's rest stays",
        ],
        |random, tally| {
            let old = generate::older_table(random);
            let wanted = old.len() / OLD_RECORD * RECORD;
            let room = generate::area_length(random, wanted);
            let mut out = random.bytes(room);
            let word = compare::widen(random, &old, &mut out);
            tally.word(word);
            match (word, old.len()) {
                (2, 0) => tally.situation("2 for the length 0"),
                (2, 57_345..) => tally.situation("2 for over 57,344"),
                (2, _) => tally.situation("2 for no multiple"),
                _ => {}
            }
            if word == 2 && room < wanted {
                tally.situation("2 before 16");
            }
            if word & 0xFF == 64 {
                if old.len().is_multiple_of(RECORD) {
                    tally.situation("a length that fits both widths");
                }
                if old.len() == 57_344 {
                    tally.situation("57,344 bytes");
                }
                if room > wanted {
                    tally.situation("the area's rest stays");
                }
            }
        },
    );
}

/// Document 01's learning, on a table of 14 bytes a record: "looks for the lowest slot with the same label and MAC. Configured: kept. Learned
/// with higher confidence: kept. Learned otherwise: nickname, confidence and seconds overwritten. No match: the lowest free slot is filled.
/// No free slot: not learned, answer "full""
fn learn_as_before(old: &mut [u8], entry: &Entry) -> u64 {
    let record = |bytes: &[u8]| read(&[bytes, &[0]].concat());
    let written = write(true, entry);
    for slot in old.chunks_exact_mut(OLD_RECORD) {
        match record(slot) {
            Record::Configured(there) | Record::Learned(there)
                if (there.label, there.mac) != (entry.label, entry.mac) => {}
            Record::Configured(_) => return KEPT,
            Record::Learned(there) if there.confidence > entry.confidence => return KEPT,
            Record::Learned(_) => {
                slot.copy_from_slice(&written[..OLD_RECORD]);
                return REFRESHED;
            }
            Record::Free | Record::Spoilt => {}
        }
    }
    for slot in old.chunks_exact_mut(OLD_RECORD) {
        if record(slot) == Record::Free {
            slot.copy_from_slice(&written[..OLD_RECORD]);
            return LEARNED;
        }
    }
    FULL
}

/// Frees the slots, from the highest on, that hold a pair of a lower one.
fn make_unique(old: &mut [u8]) {
    let mut pairs: Vec<(u8, u32, u64)> = Vec::new();
    for slot in old.chunks_exact_mut(OLD_RECORD) {
        if let Record::Learned(e) | Record::Configured(e) = read(&[&slot[..], &[0]].concat()) {
            let pair = (e.label.kind(), e.label.number(), e.mac);
            if pairs.contains(&pair) {
                slot.fill(0);
            } else {
                pairs.push(pair);
            }
        }
    }
}

/// Lookup, ageing, flushing and learning go on in a widened table as they did, at a port with the setting none: widening first and then the
/// call, and the call as document 01 has it and then widening, give the same.
#[test]
fn a_widened_table_is_what_the_older_one_was() {
    run::cases(
        "a_widened_table_is_what_the_older_one_was",
        2,
        &[],
        &["learned", "refreshed", "kept", "full", "aged", "apart"],
        |random, tally| {
            let mut old = narrowed(&homes_table(random));
            make_unique(&mut old);
            let mut table = widened(&old);
            assert!(homes_are_apart(&table));
            tally.situation("apart");
            for (wide, narrow) in table.chunks(RECORD).zip(old.chunks(OLD_RECORD)) {
                assert_eq!(wide, [narrow, &[0]].concat());
                if let Record::Learned(entry) | Record::Configured(entry) = read(wide) {
                    assert!(!entry.multihomed);
                }
            }
            for _ in 0..random.length(1, 6) {
                let confidence = random.pick(&CONFIDENCES);
                let settings = port(0, confidence);
                let (label, mac) = (random.pick(&LABELS), random.pick(&MACS));
                let nickname = random.pick(&NICKNAMES);
                let bytes = frame(label, mac, nickname, random.below(4) as u8).bytes();
                let mut out = [0; 16];
                let word = receive(random, &settings, &bytes, &mut table, &mut out);
                let taught = Entry {
                    label,
                    mac,
                    nickname,
                    confidence,
                    seconds: 300,
                    multihomed: false,
                };
                let learning = learn_as_before(&mut old, &taught);
                assert_eq!(word >> 24 & 3, learning);
                assert!(table == widened(&old), "{}", compare::hex(&table));
                tally.situation(match learning {
                    LEARNED => "learned",
                    REFRESHED => "refreshed",
                    KEPT => "kept",
                    _ => "full",
                });
                if random.one_in(4) {
                    let mut wide = table.clone();
                    compare::age(random, 100, &mut wide);
                    tally.situation("aged");
                    assert!(wide.chunks(RECORD).all(|record| record[RECORD - 1] == 0));
                }
            }
        },
    );
}

/// Where it differs: of two equal pairs document 01 kept the second.
#[test]
fn of_equal_pairs_an_unmarked_frame_leaves_one() {
    let [one, two, three] = NICKNAMES;
    let (low, high) = (learned(one, 20, UNMARKED), learned(two, 20, UNMARKED));
    let table = [low, high];
    check(
        &table,
        (three, UNMARKED),
        REFRESHED,
        &[taught(three, UNMARKED), FREE],
    );
    let mut old = narrowed(&table.concat());
    let learning = learn_as_before(
        &mut old,
        &Entry {
            seconds: 300,
            ..entry(three, 20, UNMARKED)
        },
    );
    assert_eq!(learning, REFRESHED);
    assert_eq!(widened(&old), [taught(three, UNMARKED), high].concat());
}

/// The lengths at which the widths meet, in every call with a table.
#[test]
fn every_call_takes_the_lengths_of_the_wider_table() {
    let mut random = run::random("every_call_takes_the_lengths_of_the_wider_table");
    let bytes = frame(LABELS[0], MACS[0], NICKNAMES[0], FIRST).bytes();
    for (length, good) in [
        (14, false),
        (15, true),
        (210, true),
        (57_330, true),
        (57_344, false),
        (61_425, true),
        (61_440, true),
        (61_455, false),
    ] {
        let lender = &mut random;
        let mut table = vec![0; length];
        let mut answers = vec![
            compare::lookup(lender, 0, 10, MACS[0], &table),
            compare::age(lender, 1, &mut table),
            compare::spoilt(lender, &table),
            compare::flush(lender, 1, &[0, 0, 6, 0], &mut table),
        ];
        // the last slot alone is free, and holds what is learned
        let slots = length / RECORD;
        for slot in 0..slots.saturating_sub(1) {
            table[slot * RECORD] = 0xC0;
        }
        let out = &mut [0; 16];
        answers.push(receive(lender, &port(0, 20), &bytes, &mut table, out));
        for word in answers {
            assert_eq!(word != 2, good, "length {length}");
        }
        if good {
            assert_eq!(
                table[(slots - 1) * RECORD..],
                taught(NICKNAMES[0], UNMARKED)
            );
        }
    }
    assert_eq!((TABLE, SLOTS * RECORD), (61_440, 61_440));
    for (length, word) in [
        (0, 2),
        (13, 2),
        (15, 2),
        (14, 64 | 15 << 8),
        (210, 64 | 225 << 8),
        (57_344, 64 | 61_440 << 8),
        (57_358, 2),
        (61_440, 2),
    ] {
        let old = random.bytes(length);
        let mut out = random.bytes(TABLE);
        assert_eq!(
            compare::widen(&mut random, &old, &mut out),
            word,
            "{length}"
        );
    }
    let mut short = random.bytes(TABLE - 1);
    let old = random.bytes(57_344);
    assert_eq!(compare::widen(&mut random, &old, &mut short), 16);
}
