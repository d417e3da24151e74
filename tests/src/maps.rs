//! Random maps between VLANs and fine-grained labels, native frames, and what ingress puts around them (document 02, 2026-01).

use std::collections::BTreeSet;

use crate::generate::{self, six_bytes, Pool};
use crate::random::Random;
use crate::reference::{Encapsulation, Settings, PAIR};

const GROUP: u64 = 1 << 40;
const ALL_RBRIDGES: u64 = 0x0180_C200_0040;

/// The pairs that a good map can have, one for each VLAN.
pub const PAIRS_MAX: usize = 0xFFE;

/// A VLAN and a label, good or not.
pub type Pair = (u16, u32);

pub fn bytes(pairs: &[Pair]) -> Vec<u8> {
    let pair = |(vlan, label): &Pair| [&vlan.to_be_bytes()[..], &label.to_be_bytes()[..]].concat();
    pairs.iter().flat_map(pair).collect()
}

/// Whether a word of `receive_port` is a delivery with a tag: fine-grained, by a map that is not empty.
pub fn is_tagged(map: &[u8], word: u64) -> bool {
    !map.is_empty() && word & 0xFF == 65 && word >> 32 & 1 == 1
}

/// So many pairs, at most `PAIRS_MAX`, no number twice, those of the pool among them: mostly one of its VLANs and one of its labels in a
/// pair.
pub fn good_pairs(random: &mut Random, pool: &Pool, count: usize) -> Vec<Pair> {
    let (mut vlans, mut labels) = (BTreeSet::new(), BTreeSet::new());
    let mut pairs = Vec::with_capacity(count);
    // All of them in some order where many VLANs are wanted, since few draws would be new ones.
    let mut rest: Vec<u16> = Vec::new();
    if count > 100 {
        rest.extend(0x001..=0xFFE);
        for last in (1..rest.len()).rev() {
            rest.swap(last, random.length(0, last));
        }
    }
    while pairs.len() < count {
        let mut vlan = match random.below(4) {
            0 => random.pick(&[0x001, 0x002, 0xFFD, 0xFFE]),
            1..=2 => pool.vlan(random),
            _ => random.between(0x001, 0xFFE) as u16,
        };
        while !vlans.insert(vlan) {
            vlan = rest
                .pop()
                .unwrap_or_else(|| random.between(0x001, 0xFFE) as u16);
        }
        let mut label = match random.below(4) {
            0 => random.pick(&[0, 1, 0xFFF, 0x1000, 0xFF_FFFE, 0xFF_FFFF]),
            // The number of a VLAN, as a label.
            1 => u32::from(pool.vlan(random)),
            _ => pool.fine(random),
        };
        while !labels.insert(label) {
            label = random.below(1 << 24) as u32;
        }
        pairs.push((vlan, label));
    }
    pairs
}

/// What makes a map bad.
#[derive(Clone, Copy, Debug, PartialEq, Eq)]
pub enum Defect {
    VlanTwice,
    LabelTwice,
    PairTwice,
    VlanZero,
    VlanFff,
    VlanWide,
    LabelWide,
    Cut,
}

impl Defect {
    pub const ALL: [Defect; 8] = [
        Defect::VlanTwice,
        Defect::LabelTwice,
        Defect::PairTwice,
        Defect::VlanZero,
        Defect::VlanFff,
        Defect::VlanWide,
        Defect::LabelWide,
        Defect::Cut,
    ];

    /// Whether it takes two pairs.
    pub fn takes_two(self) -> bool {
        matches!(
            self,
            Defect::VlanTwice | Defect::LabelTwice | Defect::PairTwice
        )
    }

    /// A map with this defect at a place, or with the numbers of the pair at this place twice, the other time at another place. A cut
    /// is at the end whatever the place.
    pub fn put(self, random: &mut Random, pairs: &[Pair], at: usize) -> Vec<u8> {
        let mut pairs = pairs.to_vec();
        let other = match pairs.len() {
            0..=1 => 0,
            count => (at + random.length(1, count - 1)) % count,
        };
        let (vlan, label) = pairs[other];
        match self {
            Defect::VlanTwice => pairs[at].0 = vlan,
            Defect::LabelTwice => pairs[at].1 = label,
            Defect::PairTwice => pairs[at] = (vlan, label),
            Defect::VlanZero => pairs[at].0 = 0,
            Defect::VlanFff => pairs[at].0 = 0xFFF,
            // A good number in the low bits.
            Defect::VlanWide => pairs[at].0 |= 1 << random.between(12, 15),
            Defect::LabelWide => pairs[at].1 |= 1 << random.between(24, 31),
            Defect::Cut => {}
        }
        let mut bytes = bytes(&pairs);
        if self == Defect::Cut {
            bytes.truncate(bytes.len() - random.length(1, PAIR - 1));
        }
        bytes
    }
}

fn map_of(random: &mut Random, pool: &Pool, count: usize) -> Vec<u8> {
    mostly_good(random, pool, count, 8)
}

/// A map of so many pairs, one in so many of them with a defect.
pub fn mostly_good(random: &mut Random, pool: &Pool, count: usize, bad: u64) -> Vec<u8> {
    let pairs = good_pairs(random, pool, count);
    let enough = |defect: Defect| pairs.len() > usize::from(defect.takes_two());
    let defect = random.pick(&Defect::ALL);
    if random.one_in(bad) && enough(defect) {
        let at = match random.below(3) {
            0 => 0,
            1 => pairs.len() / 2,
            _ => pairs.len() - 1,
        };
        return defect.put(random, &pairs, at);
    }
    if random.one_in(60) {
        // Any bytes.
        let length = random.length(1, 20);
        return random.bytes(length);
    }
    bytes(&pairs)
}

/// A map of at most 60 pairs, now and then a bad one.
pub fn small_map(random: &mut Random, pool: &Pool) -> Vec<u8> {
    let count = match random.below(20) {
        0..=1 => 0,
        2..=5 => 1,
        6..=9 => 2,
        10 => 50,
        11 => random.length(20, 60),
        _ => random.length(3, 19),
    };
    map_of(random, pool, count)
}

/// A map of any number of pairs, mostly small, now and then a bad one.
pub fn map(random: &mut Random, pool: &Pool) -> Vec<u8> {
    match random.below(300) {
        0 => map_of(random, pool, PAIRS_MAX),
        1 => {
            // One more than there are VLANs.
            let mut map = bytes(&good_pairs(random, pool, PAIRS_MAX));
            let more = [
                random.between(0x001, 0xFFE) as u16,
                0,
                random.below(1 << 16) as u16,
            ];
            map.extend(more.map(u16::to_be_bytes).concat());
            map
        }
        2 => {
            let count = random.length(61, PAIRS_MAX);
            map_of(random, pool, count)
        }
        _ => small_map(random, pool),
    }
}

/// Settings of `receive_port`: any R bit or none, Smart Endnodes on or off, and now and then one of the two out of range.
pub fn settings(random: &mut Random, pool: &Pool) -> Settings {
    let mut settings = generate::settings(random, pool);
    settings.multihomed = random.pick(&[0, 0, 1, 2]);
    settings.smart = random.pick(&[0, 0, 1]);
    if random.one_in(60) {
        let number = random.pick(&[3, 0x100, 0x101, 1 << 16, 1 << 31, u32::MAX]);
        match random.below(3) {
            0 => settings.multihomed = number,
            1 => settings.smart = number,
            _ => settings.smart = 2,
        }
    }
    settings
}

// Native frames

/// A native frame by its fields, good or not.
#[derive(Clone, Debug)]
pub struct Native {
    pub destination: u64,
    pub source: u64,
    /// Ethertype, and the two bytes with priority, DEI and VLAN.
    pub tag: Option<(u16, u16)>,
    pub content: Vec<u8>,
}

impl Native {
    pub fn bytes(&self) -> Vec<u8> {
        let mut bytes = [six_bytes(self.destination), six_bytes(self.source)].concat();
        if let Some((ethertype, tag)) = self.tag {
            bytes.extend(ethertype.to_be_bytes());
            bytes.extend(tag.to_be_bytes());
        }
        bytes.extend(&self.content);
        bytes
    }
}

/// A VLAN of the map, mostly.
fn vlan(random: &mut Random, pool: &Pool, map: &[u8]) -> u16 {
    let pairs = map.len() / PAIR;
    if pairs == 0 || random.one_in(8) {
        return pool.vlan(random);
    }
    let pair = match random.below(4) {
        0 => 0,
        1 => pairs - 1,
        _ => random.length(0, pairs - 1),
    };
    let at = PAIR * pair;
    u16::from_be_bytes([map[at], map[at + 1]]) & 0xFFF
}

/// A native frame that a port with this map takes in, mostly.
pub fn good_native(random: &mut Random, pool: &Pool, map: &[u8]) -> Native {
    let vlan = vlan(random, pool, map);
    let destination = match random.below(6) {
        0 => random.number() & ((1 << 48) - 1),
        1 => random.pick(&[
            0xFFFF_FFFF_FFFF,
            ALL_RBRIDGES,
            0x0180_C200_0000,
            0x0180_C200_0042,
        ]),
        _ => pool.mac(random),
    };
    let mut native = Native {
        destination,
        source: pool.mac(random),
        tag: Some((0x8100, (random.below(16) as u16) << 12 | vlan)),
        content: generate::data_content(random),
    };
    if random.one_in(80) {
        let length = random.pick(&[9191, 9192, 9192, 9193, 9194, 9215, 9216, 9217]);
        native.content.resize(length - 16, 0x5A);
    }
    native
}

/// A native frame with no fault, one or several.
pub fn native(random: &mut Random, pool: &Pool, map: &[u8]) -> Native {
    let mut native = good_native(random, pool, map);
    let faults = match random.below(10) {
        0..=5 => 0,
        6..=8 => 1,
        _ => random.length(2, 3),
    };
    for _ in 0..faults {
        match random.below(7) {
            0 => native.source |= GROUP,
            1 => native.tag = None,
            2 => {
                let ethertype = random.pick(&[0x8101, 0x0081, 0x88A8, 0x893B, 0x22F3]);
                native.tag = native.tag.map(|(_, tag)| (ethertype, tag));
            }
            3 => {
                let vlan = random.pick(&[0x000, 0xFFF]);
                native.tag = native.tag.map(|(kind, tag)| (kind, tag & 0xF000 | vlan));
            }
            4 => native.content.truncate(random.length(0, 1)),
            5 => {
                let vlan = random.between(0x001, 0xFFE) as u16;
                native.tag = native.tag.map(|(kind, tag)| (kind, tag & 0xF000 | vlan));
            }
            _ => native.content.clear(),
        }
    }
    native
}

/// What ingress puts around a frame for a far port with these settings.
pub fn good_encapsulation(random: &mut Random, pool: &Pool, far: &Settings) -> Encapsulation {
    let m = u32::from(random.one_in(3));
    let individual = |address: u64| address & ((1 << 48) - 1) & !GROUP;
    Encapsulation {
        outer_destination: match m {
            1 => ALL_RBRIDGES,
            _ => individual(far.port),
        },
        outer_source: match random.below(3) {
            0 => pool.mac(random),
            _ => individual(random.number()),
        },
        m,
        hop_count: match random.below(3) {
            0 => random.pick(&[1, 2, 62, 63]),
            _ => random.between(1, 63) as u32,
        },
        egress: match random.below(8) {
            0 => u32::from(pool.nickname(random)),
            _ => match far.nickname {
                nickname @ 0x0001..=0xFFBF => nickname,
                _ => 0x0001,
            },
        },
        ingress: match random.below(4) {
            0 => random.pick(&[0x0001, 0x1234, 0xFFBF]),
            _ => u32::from(pool.nickname(random)),
        },
    }
}

/// The same with no fault, one or several.
pub fn encapsulation(random: &mut Random, pool: &Pool, far: &Settings) -> Encapsulation {
    let mut given = good_encapsulation(random, pool, far);
    let faults = match random.below(10) {
        0..=5 => 0,
        6..=8 => 1,
        _ => random.length(2, 3),
    };
    let nicknames = [0, 0xFFC0, 0xFFFF, 0x1_0000, 0x1_0001, u32::MAX];
    for _ in 0..faults {
        match random.below(9) {
            0 => given.outer_source = generate::edge_address(random, given.outer_source),
            1 => given.outer_destination |= 1 << random.between(48, 63),
            2 => given.m = random.pick(&[2, 3, 0x100, 0x101, 1 << 31, u32::MAX]),
            3 => given.m ^= 1,
            4 => given.hop_count = random.pick(&[0, 64, 65, 0x100, 0x101, u32::MAX]),
            5 => given.egress = random.pick(&nicknames),
            6 => given.ingress = random.pick(&nicknames),
            7 => {
                given.outer_destination = random.pick(&[
                    ALL_RBRIDGES,
                    ALL_RBRIDGES + 1,
                    0xFFFF_FFFF_FFFF,
                    GROUP,
                    0x0180_C200_0000,
                    0x0200_0000_00A1,
                ])
            }
            _ => given.ingress = far.nickname,
        }
    }
    given
}
