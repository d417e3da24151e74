//! The typed answers of the package in rust/. Every word of every comparison is decoded and packed again
//! (`boundary`); here the typed calls give what the words say, and words that are no answers are not
//! taken for any.

use shinglebar::{
    decode, encode, raw, Aged, Answer, CampusLabel, Compacted, Contents, ContentsWriter,
    Encapsulation, Expanded, Flushed, Found, Ingressed, Label, LabelBy, Learning, Mac, MacBy,
    NicknameBy, NicknameRecord, Outer, Pair, PortVlan, Portioned, ReadHello, Received,
    ReceivedAtPort, Refusal, Reported, Sent, Settings, Spoilt, Why, Widened, WrittenHello,
};
use shinglebar_tests::generate::{self, Pool};
use shinglebar_tests::hellos;
use shinglebar_tests::maps;
use shinglebar_tests::random::Random;
use shinglebar_tests::reference::{self, OLD_RECORD, RECORD};
use shinglebar_tests::run::{self, Answers};

/// The words by the table of the C boundary, beside the package's own packing of them.
trait Packed {
    fn packed(&self) -> u64;
}

fn value(kind: u64, value: usize) -> u64 {
    assert!(value < 1 << 16);
    kind + 0x100 * value as u64
}

impl Packed for Received {
    fn packed(&self) -> u64 {
        match self {
            Received::Onward => 64,
            Received::Delivered {
                length,
                learning,
                label,
            } => {
                let learning = match learning {
                    Learning::Learned => 0,
                    Learning::Refreshed => 0x0100_0000,
                    Learning::Kept => 0x0200_0000,
                    Learning::Full => 0x0300_0000,
                };
                let (kind, number) = match label {
                    Label::Vlan(number) => (0, u64::from(*number)),
                    Label::Fine(number) => (0x1_0000_0000, u64::from(*number)),
                };
                value(65, *length) + learning + kind + 0x100_0000_0000 * number
            }
            Received::OtherChannel => 66,
            Received::Flushed { count } => value(67, usize::from(*count)),
        }
    }
}

impl Packed for ReceivedAtPort {
    fn packed(&self) -> u64 {
        self.0.packed()
    }
}

impl Packed for Ingressed {
    fn packed(&self) -> u64 {
        value(64, self.length)
    }
}

impl Packed for Flushed {
    fn packed(&self) -> u64 {
        value(67, usize::from(self.count))
    }
}

impl Packed for Portioned {
    fn packed(&self) -> u64 {
        value(64, usize::from(self.cleared))
            + 0x100_0000 * u64::from(self.next)
            + 0x100_0000_0000 * u64::from(self.examined)
    }
}

impl Packed for Why {
    fn packed(&self) -> u64 {
        match self {
            Why::Free => 64,
            Why::Spoilt => 65,
            Why::Configured => 66,
            Why::NicknameNotMeant => 67,
            Why::LabelNotMeant => 68,
            Why::MacNotMeant => 69,
            Why::Cleared {
                nickname,
                label,
                mac,
            } => {
                let nickname = match nickname {
                    NicknameBy::Listed(place) => 0x100 * u64::from(*place),
                    NicknameBy::Sender => 0x1_0000,
                };
                let label = match label {
                    LabelBy::Block(place) => 0x4_0000 * u64::from(*place),
                    LabelBy::Tlv(place) => 0x2_0000 + 0x4_0000 * u64::from(*place),
                };
                let mac = match mac {
                    MacBy::Tlv(place) => 0x100_0000_0000 * u64::from(*place),
                    MacBy::Every => 0x8000_0000_0000_0000,
                };
                70 + nickname + label + mac
            }
        }
    }
}

impl Packed for Compacted {
    fn packed(&self) -> u64 {
        value(64, self.length)
    }
}

impl Packed for Expanded {
    fn packed(&self) -> u64 {
        value(64, self.length)
    }
}

impl Packed for Sent {
    fn packed(&self) -> u64 {
        match self {
            Sent::Compacted { length } => value(64, *length),
            Sent::Itself => 65,
        }
    }
}

impl Packed for Found {
    fn packed(&self) -> u64 {
        match self {
            Found::Nickname(nickname) => value(64, usize::from(*nickname)),
            Found::None => 65,
        }
    }
}

impl Packed for Aged {
    fn packed(&self) -> u64 {
        64
    }
}

impl Packed for Spoilt {
    fn packed(&self) -> u64 {
        match self {
            Spoilt::Slot(slot) => value(64, usize::from(*slot)),
            Spoilt::None => 65,
        }
    }
}

impl Packed for Widened {
    fn packed(&self) -> u64 {
        value(64, self.length)
    }
}

impl Packed for Reported {
    fn packed(&self) -> u64 {
        value(64, self.length)
    }
}

impl Packed for WrittenHello {
    fn packed(&self) -> u64 {
        64 + 0x100 * self.length as u64
    }
}

impl Packed for ReadHello {
    fn packed(&self) -> u64 {
        64 + 0x100 * self.length as u64
    }
}

fn packed<A: Packed>(outcome: Result<A, Refusal>) -> u64 {
    match outcome {
        Ok(answer) => answer.packed(),
        Err(refusal) => u64::from(refusal.number()),
    }
}

/// Settings that the typed calls can be given, and the numbers that the second implementation gets.
fn settings(random: &mut Random, pool: &Pool) -> (Settings, reference::Settings) {
    let mut numbers = generate::settings(random, pool);
    numbers.port &= (1 << 48) - 1;
    numbers.inner &= (1 << 48) - 1;
    numbers.nickname &= 0xFFFF;
    numbers.compact &= 1;
    numbers.confidence &= 0xFF;
    numbers.seconds &= 0xFFFF;
    let settings = Settings {
        port: mac(numbers.port),
        inner: mac(numbers.inner),
        nickname: numbers.nickname as u16,
        compact: numbers.compact == 1,
        confidence: numbers.confidence as u8,
        seconds: numbers.seconds as u16,
        multihomed: 0,
        smart: false,
    };
    (settings, numbers)
}

fn mac(number: u64) -> Mac {
    let [_, _, bytes @ ..] = number.to_be_bytes();
    Mac(bytes)
}

#[test]
fn typed_receive_gives_what_the_paper_says() {
    run::cases(
        "typed_receive_gives_what_the_paper_says",
        1,
        run::RECEIVE,
        &[],
        |random, tally| {
            let pool = Pool::new(random);
            let (settings, numbers) = settings(random, &pool);
            let frame = generate::frame(random, &pool, &numbers);
            let length = generate::area_length(random, 12 + frame.content.len());
            let frame = generate::damage(random, frame.bytes());
            let (mut table, mut out) = (generate::table(random, &pool), random.bytes(length));
            let (mut paper_table, mut paper_out) = (table.clone(), out.clone());
            let outcome = shinglebar::receive(&settings, &frame, &mut table, &mut out);
            let paper = reference::receive(&numbers, &frame, &mut paper_table, &mut paper_out);
            assert_eq!(packed(outcome), paper, "{outcome:?}");
            assert!(table == paper_table && out == paper_out);
            tally.word(paper);
        },
    );
}

/// A typed map, which has no length but whole pairs.
fn pairs(map: &[u8]) -> Vec<Pair> {
    let pair = |bytes: &[u8]| {
        let vlan = u16::from_be_bytes([bytes[0], bytes[1]]);
        let label = u32::from_be_bytes([bytes[2], bytes[3], bytes[4], bytes[5]]);
        Pair::new(PortVlan(vlan), CampusLabel(label))
    };
    map.chunks_exact(6).map(pair).collect()
}

#[test]
fn typed_reading_with_a_map_and_typed_ingress_give_what_the_paper_says() {
    run::cases(
        "typed_reading_with_a_map_and_typed_ingress_give_what_the_paper_says",
        1,
        run::RECEIVE_PORT,
        &["ingressed", "ingress refused"],
        |random, tally| {
            let pool = Pool::new(random);
            let (mut settings, mut numbers) = settings(random, &pool);
            if random.one_in(50) {
                (settings.multihomed, numbers.multihomed) = (3, 3);
            } else if random.one_in(2) {
                let bit = random.between(1, 2) as u8;
                (settings.multihomed, numbers.multihomed) = (bit, u32::from(bit));
            }
            if random.one_in(3) {
                (settings.smart, numbers.smart) = (true, 1);
            }
            let map = pairs(&maps::small_map(random, &pool));
            let map_bytes = raw::map_bytes(&map);
            assert_eq!(pairs(map_bytes), map);
            let frame = generate::frame(random, &pool, &numbers);
            let length = generate::area_length(random, 16 + frame.content.len());
            let frame = generate::damage(random, frame.bytes());
            let (mut table, mut out) = (generate::table(random, &pool), random.bytes(length));
            let (mut paper_table, mut paper_out) = (table.clone(), out.clone());
            let outcome = shinglebar::receive_port(&settings, &map, &frame, &mut table, &mut out);
            let paper = reference::receive_port(
                &numbers,
                map_bytes,
                &frame,
                &mut paper_table,
                &mut paper_out,
            );
            assert_eq!(packed(outcome), paper, "{outcome:?}");
            assert!(table == paper_table && out == paper_out);
            tally.word(paper);

            let mut given = maps::encapsulation(random, &pool, &numbers);
            given.outer_destination &= (1 << 48) - 1;
            given.outer_source &= (1 << 48) - 1;
            given.m &= 1;
            given.hop_count &= 0xFF;
            given.egress &= 0xFFFF;
            given.ingress &= 0xFFFF;
            let typed = Encapsulation {
                outer_destination: mac(given.outer_destination),
                outer_source: mac(given.outer_source),
                multicast: given.m == 1,
                hop_count: given.hop_count as u8,
                egress: given.egress as u16,
                ingress: given.ingress as u16,
            };
            let native = maps::native(random, &pool, map_bytes).bytes();
            let native = generate::damage(random, native);
            let outcome = shinglebar::ingress(&settings, &map, &typed, &native, &mut out);
            let paper = reference::ingress(&numbers, map_bytes, &given, &native, &mut paper_out);
            assert_eq!(packed(outcome), paper, "{outcome:?}");
            assert!(out == paper_out);
            tally.situation(match outcome {
                Ok(_) => "ingressed",
                Err(_) => "ingress refused",
            });
        },
    );
}

#[test]
fn typed_flush_gives_what_the_paper_says() {
    run::cases(
        "typed_flush_gives_what_the_paper_says",
        1,
        run::FLUSH,
        &[],
        |random, tally| {
            let pool = Pool::new(random);
            let ingress = generate::ingress(random, &pool) as u16;
            let payload = generate::payload(random, &pool);
            let mut table = generate::table(random, &pool);
            let mut paper_table = table.clone();
            let outcome = shinglebar::flush(ingress, &payload, &mut table);
            let paper = reference::flush(u32::from(ingress), &payload, &mut paper_table);
            assert_eq!(packed(outcome), paper, "{outcome:?}");
            assert!(table == paper_table);
            tally.word(paper);
        },
    );
}

#[test]
fn typed_portions_give_what_the_paper_says() {
    run::cases(
        "typed_portions_give_what_the_paper_says",
        1,
        run::PORTION,
        &[],
        |random, tally| {
            let pool = Pool::new(random);
            let ingress = generate::ingress(random, &pool) as u16;
            let payload = generate::payload(random, &pool);
            let mut table = generate::table(random, &pool);
            let (slot, k) = generate::portion(random, table.len());
            let (slot, k) = (slot as u16, k as u16);
            let mut paper_table = table.clone();
            let outcome = shinglebar::flush_portion(ingress, &payload, slot, k, &mut table);
            let paper = reference::flush_portion(
                u32::from(ingress),
                &payload,
                u64::from(slot),
                u64::from(k),
                &mut paper_table,
            );
            assert_eq!(packed(outcome), paper, "{outcome:?}");
            assert!(table == paper_table);
            tally.word(paper);
        },
    );
}

#[test]
fn typed_why_gives_what_the_paper_says() {
    run::cases(
        "typed_why_gives_what_the_paper_says",
        2,
        run::WHY,
        &[],
        |random, tally| {
            let pool = Pool::new(random);
            let ingress = generate::ingress(random, &pool) as u16;
            let payload = generate::payload(random, &pool);
            let table = generate::table(random, &pool);
            let (slot, _) = generate::portion(random, table.len());
            let outcome = shinglebar::why(ingress, &payload, slot as u16, &table);
            let slot = u64::from(slot as u16);
            let paper = reference::why(u32::from(ingress), &payload, slot, &table);
            assert_eq!(packed(outcome), paper, "{outcome:?}");
            tally.word(paper);
        },
    );
}

#[test]
fn typed_conversions_give_what_the_paper_says() {
    run::cases(
        "typed_conversions_give_what_the_paper_says",
        1,
        &[],
        &["compacted", "expanded", "sent compacted", "sent itself"],
        |random, tally| {
            let pool = Pool::new(random);
            let (far, numbers) = settings(random, &pool);
            let frame = generate::frame(random, &pool, &numbers).bytes();
            let length = generate::area_length(random, frame.len());
            let (frame, area) = (generate::damage(random, frame), random.bytes(length));
            let (mut out, mut paper_out) = (area.clone(), area.clone());

            let outcome = shinglebar::compact(&far, &frame, &mut out);
            let paper = reference::compact(&numbers, &frame, &mut paper_out);
            assert_eq!(packed(outcome), paper, "{outcome:?}");
            assert!(out == paper_out);
            if outcome.is_ok() {
                tally.situation("compacted");
            }

            let (source, tagged, tag) = generate::outer(random, &pool);
            let outer = Outer {
                source: mac(source),
                tag: (tagged == 1).then_some(tag as u16),
            };
            let (source, tagged) = (outer.source.number(), u32::from(outer.tag.is_some()));
            let outcome = shinglebar::expand(&far, &outer, &frame, &mut out);
            let tag = u32::from(tag as u16);
            let paper = reference::expand(&numbers, source, tagged, tag, &frame, &mut paper_out);
            assert_eq!(packed(outcome), paper, "{outcome:?}");
            assert!(out == paper_out);
            if outcome.is_ok() {
                tally.situation("expanded");
            }

            let mut out = [0xAA; shinglebar::COMPACT_LENGTH_MAX];
            let mut paper_out = out;
            let outcome = shinglebar::send(&far, &frame, &mut out);
            let paper = reference::send(&numbers, &frame, &mut paper_out);
            assert_eq!(packed(outcome), paper, "{outcome:?}");
            assert!(out == paper_out);
            if let Ok(sent) = outcome {
                let compacted = matches!(sent, Sent::Compacted { .. });
                let length = (paper >> 8) as usize;
                let expected = if compacted { &out[..length] } else { &frame };
                assert_eq!(sent.bytes(&frame, &out), expected);
                tally.situation(if compacted {
                    "sent compacted"
                } else {
                    "sent itself"
                });
            }
        },
    );
}

#[test]
fn typed_lookup_age_and_spoilt_give_what_the_paper_says() {
    run::cases(
        "typed_lookup_age_and_spoilt_give_what_the_paper_says",
        1,
        run::LOOKUP,
        &["VLAN", "fine-grained", "a spoilt slot"],
        |random, tally| {
            let pool = Pool::new(random);
            let mut table = generate::table(random, &pool);
            let (kind, label, address) = generate::key(random, &pool, &table);
            let label = match kind {
                0 => Label::Vlan(label as u16),
                _ => Label::Fine(label),
            };
            tally.situation(match label {
                Label::Vlan(_) => "VLAN",
                Label::Fine(_) => "fine-grained",
            });
            let address = mac(address);
            let outcome = shinglebar::lookup(label, address, &table);
            let paper = reference::lookup(label.kind(), label.number(), address.number(), &table);
            assert_eq!(packed(outcome), paper, "{outcome:?}");
            tally.word(paper);

            let outcome = shinglebar::spoilt(&table);
            assert_eq!(packed(outcome), reference::spoilt(&table), "{outcome:?}");
            if matches!(outcome, Ok(Spoilt::Slot(_))) {
                tally.situation("a spoilt slot");
            }

            let seconds = generate::seconds(random, &table);
            let mut paper_table = table.clone();
            let outcome = shinglebar::age(seconds, &mut table);
            let paper = reference::age(seconds, &mut paper_table);
            assert_eq!(packed(outcome), paper, "{outcome:?}");
            assert!(table == paper_table);
        },
    );
}

#[test]
fn typed_widen_gives_what_the_paper_says() {
    run::cases(
        "typed_widen_gives_what_the_paper_says",
        8,
        run::WIDEN,
        &[],
        |random, tally| {
            let old = generate::older_table(random);
            let length = generate::area_length(random, old.len() / OLD_RECORD * RECORD);
            let mut out = random.bytes(length);
            let mut paper_out = out.clone();
            let outcome = shinglebar::widen(&old, &mut out);
            let paper = reference::widen(&old, &mut paper_out);
            assert_eq!(packed(outcome), paper, "{outcome:?}");
            assert!(out == paper_out);
            tally.word(paper);
        },
    );
}

#[test]
fn typed_report_gives_what_the_paper_says() {
    run::cases(
        "typed_report_gives_what_the_paper_says",
        8,
        run::REPORT,
        &[],
        |random, tally| {
            let table = generate::crowd(random);
            let length = generate::area_length(random, reference::reported(&table).len());
            let mut out = random.bytes(length);
            let mut paper_out = out.clone();
            let outcome = shinglebar::report(&table, &mut out);
            let paper = reference::report(&table, &mut paper_out);
            assert_eq!(packed(outcome), paper, "{outcome:?}");
            assert!(out == paper_out);
            tally.word(paper);
        },
    );
}

#[test]
fn typed_hello_read_gives_what_the_paper_says() {
    run::cases(
        "typed_hello_read_gives_what_the_paper_says",
        4,
        run::HELLO,
        &["the contents hold each kind"],
        |random, tally| {
            let (payload, _) = hellos::payload(random);
            let found = reference::Contents::read(&payload);
            let result = found.as_ref().map_or(0, |found| found.area().len());
            let length = generate::area_length(random, result);
            let mut area = random.bytes(length);
            let mut paper_area = area.clone();
            let outcome = shinglebar::hello_read(&payload, &mut area);
            let paper = reference::hello_read(&payload, &mut paper_area);
            assert_eq!(packed(outcome), paper, "{outcome:?}");
            assert!(area == paper_area);
            tally.word(paper);
            if let (Ok(read), Ok(found)) = (outcome, found) {
                let contents = Contents::new(&area[..read.length]).expect("what was read");
                assert_eq!(as_reference(&contents), found);
                if !found.nicknames.is_empty() && !found.trees.is_empty() && !found.macs.is_empty()
                {
                    tally.situation("the contents hold each kind");
                }
            }
        },
    );
}

#[test]
fn typed_hello_write_gives_what_the_paper_says() {
    run::cases(
        "typed_hello_write_gives_what_the_paper_says",
        4,
        run::HELLO,
        &["made by ContentsWriter"],
        |random, tally| {
            let mut contents = hellos::contents(random);
            match random.below(8) {
                0 => contents.parameters = None,
                1 => drop(hellos::spoil(random, &mut contents)),
                _ => {
                    assert_eq!(made(&contents), contents.area());
                    tally.situation("made by ContentsWriter");
                }
            }
            let numbers = contents.area();
            let length = generate::area_length(random, contents.write().map_or(0, |out| out.len()));
            let mut out = random.bytes(length);
            let mut paper_out = out.clone();
            let outcome = shinglebar::hello_write(&numbers, &mut out);
            let paper = reference::hello_write(&numbers, &mut paper_out);
            assert_eq!(packed(outcome), paper, "{outcome:?}");
            assert!(out == paper_out);
            tally.word(paper);
        },
    );
}

/// The area that a writer makes of contents whose numbers have their fields' sizes; in an area that is a byte short it makes none.
fn made(contents: &reference::Contents) -> Vec<u8> {
    let mut area = vec![0xEE; contents.area().len()];
    let short = area.len() - 1;
    assert_eq!(fill(&mut area[..short], contents), None);
    assert_eq!(fill(&mut area, contents), Some(area.len()));
    area
}

fn fill(area: &mut [u8], contents: &reference::Contents) -> Option<usize> {
    let given = contents.parameters.expect("contents have them");
    let mut writer = ContentsWriter::new(area, given.holding as u16, given.flags as u16);
    writer.nicknames(contents.nicknames.len());
    for records in &contents.nicknames {
        let record = |record: &reference::Nickname| NicknameRecord {
            priority: record.priority as u8,
            root_priority: record.root_priority as u16,
            nickname: record.nickname as u16,
        };
        writer.nickname(&records.iter().map(record).collect::<Vec<_>>());
    }
    writer.trees(contents.trees.len());
    for trees in &contents.trees {
        let nicknames: Vec<u16> = trees
            .nicknames
            .iter()
            .map(|&number| number as u16)
            .collect();
        writer.tree(trees.start as u16, &nicknames);
    }
    writer.macs(contents.macs.len());
    for smart in &contents.macs {
        let mac = |&number: &u64| Mac::from_number(number).expect("a MAC");
        let macs: Vec<Mac> = smart.macs.iter().map(mac).collect();
        let label = smart.label as u32;
        writer.mac(smart.fine == 1, smart.multihomed == 1, label, &macs);
    }
    writer.length()
}

/// What the typed contents show, as the second implementation has it.
fn as_reference(contents: &Contents) -> reference::Contents {
    let record = |record: NicknameRecord| reference::Nickname {
        priority: record.priority.into(),
        root_priority: record.root_priority.into(),
        nickname: record.nickname.into(),
    };
    reference::Contents {
        parameters: Some(reference::Parameters {
            holding: contents.holding.into(),
            flags: contents.flags.into(),
        }),
        nicknames: contents
            .nicknames()
            .map(|nicknames| nicknames.records().map(record).collect())
            .collect(),
        trees: contents
            .trees()
            .map(|trees| reference::Trees {
                start: trees.start.into(),
                nicknames: trees.nicknames().map(u64::from).collect(),
            })
            .collect(),
        macs: contents
            .macs()
            .map(|smart| reference::SmartMac {
                fine: smart.fine.into(),
                multihomed: smart.multihomed.into(),
                label: smart.label.into(),
                macs: smart.macs().map(Mac::number).collect(),
            })
            .collect(),
    }
}

/// An area that [`shinglebar::hello_read`] does not write has no typed contents: cut at any length, longer, or a number over its field.
#[test]
fn an_area_of_another_form_has_no_contents() {
    let numbers = [
        1u64,
        30,
        0,
        1,
        1,
        0x40,
        0x8000,
        0x1234,
        1,
        1,
        1,
        0x1234,
        1,
        0,
        1,
        10,
        1,
        0x0200_0000_0001,
    ];
    let area = |numbers: &[u64]| -> Vec<u8> {
        let bytes = numbers.iter().flat_map(|number| number.to_be_bytes());
        bytes.collect()
    };
    let good = area(&numbers);
    assert!(Contents::new(&good).is_some());
    for length in 0..good.len() {
        assert!(Contents::new(&good[..length]).is_none(), "{length}");
    }
    assert!(Contents::new(&[good, vec![0; 8]].concat()).is_none());
    for at in 0..numbers.len() {
        for number in [1 << 48, u64::MAX] {
            let mut changed = numbers;
            changed[at] = number;
            assert!(Contents::new(&area(&changed)).is_none(), "{at}");
        }
    }
}

/// The bits of a word by their use: the low byte, those of values, and all others, which are 0.
struct Bits {
    kind: u8,
    values: u64,
    /// A good word of the kind.
    good: u64,
}

const NO_VALUE: u64 = 0;
const ONE_VALUE: u64 = 0xFF_FF00;

/// Of all kinds of a call, as the table of the C boundary says.
fn bits(kind: u8, values: u64, good: u64) -> Bits {
    Bits { kind, values, good }
}

/// Every low byte, every stray bit and random words: what is decoded is packed as the same word, and
/// nothing else is taken for an answer.
fn check_words<A: Answer + Packed>(name: &str, answers: Answers, kinds: &[Bits]) {
    let mut random = run::random(name);
    for low in 0..=255u8 {
        let listed = answers.iter().any(|(byte, _)| *byte == low);
        let known = match kinds.iter().find(|bits| bits.kind == low) {
            // A kind with values is looked at below; its word without any may be out of range.
            Some(bits) => decode::<A>(bits.good).is_ok(),
            None => decode::<A>(u64::from(low)).is_ok(),
        };
        assert_eq!(known, listed, "{name}: low byte {low}");
        if low < 64 {
            // "A refusal is its number alone, the whole 64 bits."
            for bit in 8..64 {
                let word = u64::from(low) | 1 << bit;
                assert!(decode::<A>(word).is_err(), "{name}: {word:#x}");
            }
        }
    }
    for bits in kinds {
        for bit in 8..64 {
            let word = bits.good ^ (1 << bit);
            if bits.values >> bit & 1 == 0 {
                assert!(decode::<A>(word).is_err(), "{name}: {word:#x}");
            }
        }
    }
    let mut decoded = 0;
    for _ in 0..1_000_000 {
        // Mostly bits of values, so that many are words of the call.
        let kind = &kinds[random.below(kinds.len() as u64) as usize];
        let mut word = u64::from(kind.kind) | random.number() & kind.values;
        if random.one_in(3) {
            word ^= 1 << random.below(64);
        }
        if let Ok(outcome) = decode::<A>(word) {
            assert_eq!(encode(&outcome), word, "{name}");
            assert_eq!(packed(outcome), word, "{name}");
            decoded += 1;
        }
    }
    assert!(decoded > 1000, "{name}: only {decoded} words were decoded");
}

#[test]
fn a_word_that_is_no_answer_is_not_taken_for_one() {
    let delivered = 0xFFFF_FF01_03FF_FF00;
    check_words::<Received>(
        "receive",
        run::RECEIVE,
        &[
            bits(64, NO_VALUE, 64),
            bits(65, delivered, 0x0000_0A00_0000_1041),
            bits(65, delivered, 0x8000_0001_0000_1041),
            bits(66, NO_VALUE, 66),
            bits(67, ONE_VALUE, 67),
        ],
    );
    check_words::<ReceivedAtPort>(
        "receive_port",
        run::RECEIVE_PORT,
        &[
            bits(64, NO_VALUE, 64),
            bits(65, delivered, 0x0000_0A00_0000_1041),
            bits(65, delivered, 0x8000_0001_0000_1041),
            bits(66, NO_VALUE, 66),
            bits(67, ONE_VALUE, 67),
        ],
    );
    check_words::<Flushed>("flush", run::FLUSH, &[bits(67, ONE_VALUE, 67)]);
    check_words::<Portioned>(
        "flush_portion",
        run::PORTION,
        &[bits(64, 0x001F_FF1F_FF1F_FF00, 0x0000_0100_0100_0040)],
    );
    let cleared = 0xBFFF_FFFF_FFFF_FF00;
    check_words::<Why>(
        "why",
        run::WHY,
        &[
            bits(64, NO_VALUE, 64),
            bits(65, NO_VALUE, 65),
            bits(66, NO_VALUE, 66),
            bits(67, NO_VALUE, 67),
            bits(68, NO_VALUE, 68),
            bits(69, NO_VALUE, 69),
            bits(70, cleared, 0x8000_0000_0000_0046),
            bits(70, cleared, 0x0000_0000_000B_0046),
        ],
    );
    check_words::<Compacted>("compact", run::COMPACT, &[bits(64, ONE_VALUE, 0x1040)]);
    check_words::<Ingressed>("ingress", run::INGRESS, &[bits(64, ONE_VALUE, 0x1040)]);
    check_words::<Expanded>("expand", run::EXPAND, &[bits(64, ONE_VALUE, 0x1040)]);
    check_words::<Sent>(
        "send",
        run::SEND,
        &[bits(64, ONE_VALUE, 0x1040), bits(65, NO_VALUE, 65)],
    );
    check_words::<Found>(
        "lookup",
        run::LOOKUP,
        &[bits(64, ONE_VALUE, 0x0140), bits(65, NO_VALUE, 65)],
    );
    check_words::<Aged>("age", run::AGE, &[bits(64, NO_VALUE, 64)]);
    check_words::<Spoilt>(
        "spoilt",
        run::SPOILT,
        &[bits(64, ONE_VALUE, 64), bits(65, NO_VALUE, 65)],
    );
    check_words::<Widened>("widen", run::WIDEN, &[bits(64, ONE_VALUE, 0x0F40)]);
    check_words::<Reported>("report", run::REPORT, &[bits(64, ONE_VALUE, 0x1940)]);
    check_words::<ReadHello>("hello_read", run::HELLO, &[bits(64, !0x7FF, 0x3040)]);
    check_words::<WrittenHello>("hello_write", run::HELLO, &[bits(64, !0xFF, 0x0B40)]);
}

#[test]
fn values_that_no_answer_has_are_not_taken_for_one() {
    let received = |word| decode::<Received>(word).is_ok();
    let delivered = |kind: u64, label: u64| 0x1041 | kind << 32 | label << 40;
    for vlan in [0, 0xFFF, 0x1000, 0x1_0001, 0xFF_FFFF] {
        assert!(!received(delivered(0, vlan)), "VLAN {vlan:#x}");
        assert!(received(delivered(1, vlan)), "fine-grained {vlan:#x}");
    }
    assert!(received(delivered(0, 1)) && received(delivered(0, 0xFFE)));
    let length = |length: u64| decode::<Compacted>(64 | length << 8).is_ok();
    assert!(!length(13) && length(14) && length(9216) && !length(9217));
    let nickname = |nickname: u64| decode::<Found>(64 | nickname << 8).is_ok();
    assert!(!nickname(0) && nickname(1) && nickname(0xFFBF) && !nickname(0xFFC0));
    let count = |count: u64| decode::<Flushed>(67 | count << 8).is_ok();
    assert!(count(0) && count(4096) && !count(4097));
    let why = |places: u64| decode::<Why>(70 | places).is_ok();
    let (sender, tlv, every_mac) = (1 << 16, 1 << 17, 1 << 63);
    assert!(why(every_mac | 254 << 8) && !why(every_mac | 255 << 8));
    assert!(why(every_mac | sender) && !why(every_mac | sender | 1 << 8));
    assert!(why(every_mac | 254 << 18) && !why(every_mac | 255 << 18));
    assert!(why(every_mac | tlv | 255 << 18) && why(every_mac | tlv | 0x3F_FFFF << 18));
    assert!(!why(every_mac | tlv | 1 << 40) && why(tlv | 1 << 40));
    // with blocks every MAC is meant
    assert!(!why(0) && !why(1 << 40) && why(tlv) && why(every_mac));
    let slot = |slot: u64| decode::<Spoilt>(64 | slot << 8).is_ok();
    assert!(slot(0) && slot(4095) && !slot(4096));
    let table = |length: u64| decode::<Widened>(64 | length << 8).is_ok();
    assert!(!table(0) && !table(14) && table(15) && table(210));
    assert!(!table(57_344) && table(61_440) && !table(61_455));
    let report = |length: u64| decode::<Reported>(64 | length << 8).is_ok();
    assert!(!report(0) && !report(9) && report(10) && !report(11) && !report(15));
    assert!(report(16) && report(25) && report(36_880) && !report(36_881));
    let contents = |length: u64| decode::<ReadHello>(64 | length << 8).is_ok();
    let hello = |length: u64| decode::<WrittenHello>(64 | length << 8).is_ok();
    assert!(!hello(0) && !hello(10) && hello(11) && hello(12));
    assert!(!contents(0) && !contents(40) && contents(48) && !contents(49) && contents(56));
}

/// The words of the table of document 01, which the second implementation has as comments.
#[test]
fn the_refusals_are_those_of_the_header() {
    let header = include_str!("../../include/shinglebar.h");
    let numbers: Vec<u64> = (1..=18).chain(21..=26).collect();
    assert_eq!(Refusal::ALL.len(), numbers.len());
    for (number, refusal) in numbers.into_iter().zip(Refusal::ALL) {
        assert_eq!(u64::from(refusal.number()), number);
        assert_eq!(Refusal::from_number(number), Some(*refusal));
        let comment = format!("/* {refusal} */\n    SHINGLEBAR_REFUSAL_");
        let (_, behind) = header
            .split_once(&comment)
            .unwrap_or_else(|| panic!("{refusal}"));
        let line = behind.lines().next().unwrap_or_default();
        assert!(
            line.trim_end_matches(',')
                .ends_with(&format!(" = {number}")),
            "{line}"
        );
    }
    for number in [0, 19, 20, 27, 64, 257, u64::MAX] {
        assert_eq!(Refusal::from_number(number), None);
    }
}

#[test]
fn empty_slices_are_areas_too() {
    let settings = raw::Settings {
        port: 0x0200_0000_00A1,
        inner: 0x0200_0000_00B1,
        nickname: 0x0102,
        compact: 1,
        confidence: 20,
        seconds: 0,
        multihomed: 0,
        smart: 0,
    };
    let given = raw::Encapsulation {
        outer_destination: 0x0200_0000_00A1,
        outer_source: 0x0200_0000_00B2,
        m: 0,
        hop_count: 5,
        egress: 0x0102,
        ingress: 0x1234,
    };
    assert_eq!(raw::receive(&settings, &[], &mut [], &mut []), 2);
    assert_eq!(raw::receive_port(&settings, &[], &[], &mut [], &mut []), 2);
    assert_eq!(raw::ingress(&settings, &[], &given, &[], &mut []), 3);
    assert_eq!(raw::compact(&settings, &[], &mut []), 3);
    assert_eq!(raw::send(&settings, &[], &mut []), 16);
    assert_eq!(raw::flush(1, &[], &mut []), 2);
    assert_eq!(raw::flush(1, &[], &mut [0; RECORD]), 15);
    assert_eq!(raw::flush_portion(1, &[], 0, 1, &mut []), 2);
    assert_eq!(raw::why(1, &[], 0, &[]), 2);
    assert_eq!(raw::why(1, &[], 0, &[0; RECORD]), 15);
    assert_eq!(raw::lookup(0, 1, 0, &[]), 2);
    assert_eq!(raw::age(0, &mut []), 2);
    assert_eq!(raw::spoilt(&[]), 2);
    assert_eq!(raw::widen(&[], &mut []), 2);
    assert_eq!(raw::widen(&[0; OLD_RECORD], &mut []), 16);
    assert_eq!(raw::report(&[], &mut []), 16);
    assert_eq!(raw::report(&[], &mut [0; 10]), 64 | 10 << 8);
    assert_eq!(raw::hello_read(&[], &mut []), 26);
    assert_eq!(raw::hello_read(&[0], &mut []), 25);
    assert_eq!(raw::hello_write(&[], &mut []), 25);
    assert_eq!(raw::hello_write(&[0; 32], &mut []), 26);
}
