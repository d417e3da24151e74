//! General frames for a judge outside this repository: tshark, the dissector of Wireshark.
//!
//! The library makes them, from a fixed seed: half by expansion of a Compact frame, half by compaction
//! of a General frame and expansion of what came out. Each half has every number of option words.
//! tests/outside holds them as a capture, with what tshark says of them.

use crate::boundary;
use crate::generate::Frame;
use crate::random::Random;
use crate::reference::Settings;

/// The far port of the conversions, and the port that reads the frames with M 1.
pub const PORT: u64 = 0x0200_0000_00A1;

const SEED: u64 = 0x22F3;
const GROUP: u64 = 0x0100_0000_0000;
const OPTION_WORDS: u8 = 32;

const SETTINGS: Settings = Settings {
    port: PORT,
    inner: 0x0200_0000_00E1,
    nickname: 0x7001,
    compact: 1,
    confidence: 32,
    seconds: 0,
    multihomed: 0,
    smart: 0,
};

/// The frames, made by the library.
pub fn frames() -> Vec<Vec<u8>> {
    let random = &mut Random::new(SEED);
    let mut frames = Vec::new();
    for words in 0..OPTION_WORDS {
        let mut frame = frame(random, words);
        frame.compact = true;
        frames.push(expanded(random, &frame.bytes()));
    }
    for words in 0..OPTION_WORDS {
        let frame = frame(random, words);
        let compact = compacted(&frame.bytes());
        frames.push(expanded(random, &compact));
    }
    frames
}

/// A General frame that compaction accepts.
fn frame(random: &mut Random, words: u8) -> Frame {
    let multicast = random.one_in(3);
    let ingress = nickname(random);
    let mut egress = nickname(random);
    while egress == ingress {
        egress = nickname(random);
    }
    Frame {
        compact: false,
        outer_destination: if multicast { 0x0180_C200_0040 } else { PORT },
        outer_source: individual(random),
        outer_tag: random.one_in(2).then(|| random.number() as u16),
        trill: 0x22F3,
        version: 0,
        reserved: random.below(4) as u8,
        multicast,
        option_length: words,
        hop_count: random.pick(&[0, 1, 2, 4, 8, 16, 32, 63, 5, 42]),
        egress,
        ingress,
        options: random.bytes(4 * usize::from(words)),
        inner_destination: match random.below(4) {
            0 => 0xFFFF_FFFF_FFFF,
            1 => 0x0100_5E00_0000 | random.below(1 << 23),
            _ => individual(random),
        },
        inner_source: individual(random),
        label: label(random),
        content: content(random),
    }
}

fn nickname(random: &mut Random) -> u16 {
    match random.below(4) {
        0 => random.pick(&[0x0001, 0x00FF, 0x0100, 0xFFBF]),
        _ => random.between(0x0001, 0xFFBF) as u16,
    }
}

fn individual(random: &mut Random) -> u64 {
    random.below(1 << 48) & !GROUP
}

/// A VLAN tag or the two tags of a fine-grained label, with any priorities and DEI.
fn label(random: &mut Random) -> Vec<u8> {
    let tags: Vec<(u16, u32)> = if random.one_in(2) {
        let vlan = random.pick(&[0x001, 0x00A, 0xFFE, 0x800, 0x2B3, 0x7D4]);
        vec![(0x8100, vlan)]
    } else {
        let any = random.below(1 << 24) as u32;
        let fine = random.pick(&[0, 0x00_000A, 0x00_1000, 0xFF_FFFF, any]);
        vec![(0x893B, fine >> 12), (0x893B, fine & 0xFFF)]
    };
    let tag = |(ethertype, number): (u16, u32)| {
        let bits = (random.below(16) as u16) << 12 | number as u16;
        [ethertype.to_be_bytes(), bits.to_be_bytes()].concat()
    };
    tags.into_iter().flat_map(tag).collect()
}

/// An Ethertype for experiments, of which tshark shows the data as they are, and some data.
fn content(random: &mut Random) -> Vec<u8> {
    let ethertype: u16 = random.pick(&[0x88B5, 0x88B6]);
    let length = random.length(0, 48);
    [&ethertype.to_be_bytes()[..], &random.bytes(length)].concat()
}

/// What the call wrote: its word says how much.
fn written(call: &str, word: u64, mut area: Vec<u8>) -> Vec<u8> {
    assert!(word & 0xFF == 64, "{call} answered {word:#x}");
    area.truncate((word >> 8) as usize);
    area
}

/// The guard bytes of a call have a generator of their own: the frames do not depend on them.
fn guards() -> Random {
    Random::new(0)
}

fn compacted(general: &[u8]) -> Vec<u8> {
    let mut area = vec![0; general.len()];
    let word = boundary::compact(&mut guards(), &SETTINGS, general, &mut area);
    written("compact", word, area)
}

/// With any outer source, and in half of the frames an outer tag.
fn expanded(random: &mut Random, compact: &[u8]) -> Vec<u8> {
    let source = individual(random);
    let tagged = random.below(2) as u32;
    let tag = random.pick(&[0x001, 0x064, 0xABC, 0xFFE]);
    let mut area = vec![0; compact.len() + 16];
    let word = boundary::expand(
        &mut guards(),
        &SETTINGS,
        source,
        tagged,
        tag,
        compact,
        &mut area,
    );
    written("expand", word, area)
}

/// A capture of Ethernet frames: classic pcap, a frame in each second from 0 on.
pub fn capture(frames: &[Vec<u8>]) -> Vec<u8> {
    let words = |words: &[u32]| -> Vec<u8> {
        let bytes = words.iter().flat_map(|word| word.to_le_bytes());
        bytes.collect()
    };
    // The magic number of microseconds, version 2.4, zone, accuracy, longest frame, Ethernet.
    let mut capture = words(&[0xA1B2_C3D4, 0x0004_0002, 0, 0, 65_535, 1]);
    for (second, frame) in frames.iter().enumerate() {
        let length = frame.len() as u32;
        capture.extend(words(&[second as u32, 0, length, length]));
        capture.extend(frame);
    }
    capture
}
