//! Tables, frames and payloads, made from fixed seeds.

use crate::random::Random;

/// The slots of the longest table.
pub const SLOTS: usize = 4096;
/// The slots of the tables along a curve.
pub const SIZES: [usize; 4] = [64, 256, 1024, SLOTS];
pub const RECORD: usize = 15;

pub const LEARNED: u8 = 1;
pub const CONFIGURED: u8 = 2;

/// The RBridges that the records of a table come from.
pub const NICKNAMES: [u16; 16] = [
    0x1001, 0x1102, 0x1203, 0x1304, 0x1405, 0x1506, 0x1607, 0x1708, 0x2809, 0x290A, 0x3A0B, 0x3B0C,
    0x4C0D, 0x4D0E, 0x5E0F, 0x5F10,
];

#[derive(Clone, Copy)]
pub enum Label {
    Vlan(u16),
    Fine(u32),
}

impl Label {
    pub fn any(random: &mut Random) -> Label {
        if random.one_in(2) {
            Label::any_vlan(random)
        } else {
            Label::any_fine(random)
        }
    }

    pub fn any_vlan(random: &mut Random) -> Label {
        Label::Vlan(random.between(0x001, 0xFFE) as u16)
    }

    pub fn any_fine(random: &mut Random) -> Label {
        Label::Fine(random.between(0, 0xFF_FFFF) as u32)
    }

    pub fn kind(self) -> u32 {
        match self {
            Label::Vlan(_) => 0,
            Label::Fine(_) => 1,
        }
    }

    pub fn number(self) -> u32 {
        match self {
            Label::Vlan(number) => u32::from(number),
            Label::Fine(number) => number,
        }
    }
}

#[derive(Clone, Copy)]
pub struct Entry {
    pub state: u8,
    pub label: Label,
    pub mac: u64,
    pub nickname: u16,
    pub confidence: u8,
    pub seconds: u16,
    pub multihomed: bool,
}

impl Entry {
    /// A learned entry with more than 100 seconds left.
    pub fn any(random: &mut Random) -> Entry {
        Entry {
            state: LEARNED,
            label: Label::any(random),
            mac: mac(random),
            nickname: random.pick(&NICKNAMES),
            confidence: random.byte(),
            seconds: random.between(101, 8191) as u16,
            multihomed: false,
        }
    }

    pub fn bytes(&self) -> [u8; RECORD] {
        let bits = u128::from(self.state) << 118
            | u128::from(self.label.kind()) << 117
            | u128::from(self.label.number()) << 93
            | u128::from(self.mac) << 45
            | u128::from(self.nickname) << 29
            | u128::from(self.confidence) << 21
            | u128::from(self.seconds) << 8
            | u128::from(self.multihomed) << 7;
        let [_, bytes @ ..] = bits.to_be_bytes();
        bytes
    }
}

/// An individual address: one of eight makers and any number.
pub fn mac(random: &mut Random) -> u64 {
    let makers = [
        0x00_1B21, 0x00_1C73, 0x00_5056, 0x00_2590, 0x3C_FDFE, 0x52_5400, 0x9C_DC71, 0xF8_F21E,
    ];
    random.pick(&makers) << 24 | random.between(0, 0xFF_FFFF)
}

/// The entries of a full table.
pub fn entries(random: &mut Random) -> Vec<Entry> {
    (0..SLOTS).map(|_| Entry::any(random)).collect()
}

pub fn table(entries: &[Entry]) -> Vec<u8> {
    entries.iter().flat_map(Entry::bytes).collect()
}

/// A full table but for its last slot, which is free; the records before it, so many from slot 0 on, spoilt by state 0.
pub fn last_free(entries: &[Entry], spoilt: usize) -> Vec<u8> {
    let mut table = table(entries);
    table[(SLOTS - 1) * RECORD..].fill(0);
    for slot in table.chunks_exact_mut(RECORD).take(spoilt) {
        slot[0] &= 0x3F;
    }
    table
}

/// The settings of the port, in the order of the calls.
#[derive(Clone, Copy)]
pub struct Settings {
    pub port: u64,
    pub inner: u64,
    pub nickname: u32,
    pub compact: u32,
    pub confidence: u32,
    pub seconds: u32,
}

pub const SETTINGS: Settings = Settings {
    port: 0x0200_0000_00A1,
    inner: 0x0200_0000_00E1,
    nickname: 0x2345,
    compact: 1,
    confidence: 32,
    seconds: 0,
};

/// The seconds that are learned where the setting is 0.
pub const DEFAULT_SECONDS: u16 = 1200;

#[derive(Clone, Copy)]
pub enum Format {
    General,
    Compact,
}

/// A frame for the port of `SETTINGS` with M 0, no options and no outer tag.
#[derive(Clone, Copy)]
pub struct Frame {
    pub inner_destination: u64,
    pub inner_source: u64,
    pub vlan: u16,
    pub egress: u16,
    pub ingress: u16,
}

impl Frame {
    /// A frame whose source is that of an entry.
    pub fn from(entry: &Entry) -> Frame {
        let Label::Vlan(vlan) = entry.label else {
            panic!("the frames of the benchmark have VLAN labels");
        };
        Frame {
            inner_destination: 0x0200_0000_000D,
            inner_source: entry.mac,
            vlan,
            egress: SETTINGS.nickname as u16,
            ingress: entry.nickname,
        }
    }

    /// The bytes of the frame, with as much content as gives this length.
    pub fn bytes(&self, format: Format, length: usize) -> Vec<u8> {
        let trill = [
            &[0x22, 0xF3, 0x00, 0x05][..],
            &self.egress.to_be_bytes(),
            &self.ingress.to_be_bytes(),
        ]
        .concat();
        let inner = [
            &address(self.inner_destination)[..],
            &address(self.inner_source),
            &[0x81, 0x00],
            &self.vlan.to_be_bytes(),
        ]
        .concat();
        let mut frame = match format {
            Format::General => [
                &address(SETTINGS.port)[..],
                &address(0x0200_0000_00B2),
                &trill,
                &inner,
            ]
            .concat(),
            Format::Compact => [inner, trill].concat(),
        };
        frame.extend([0x08, 0x00]);
        let mut random = Random::new(7);
        while frame.len() < length {
            frame.push(random.byte());
        }
        assert!(frame.len() == length, "{length} bytes are too few");
        frame
    }
}

/// The six bytes of an address.
pub fn address(address: u64) -> [u8; 6] {
    let [_, _, bytes @ ..] = address.to_be_bytes();
    bytes
}

/// The payload of an Address Flush, from its list of nicknames on.
pub struct Payload {
    bytes: Vec<u8>,
}

impl Payload {
    /// No list means the ingress nickname.
    pub fn new(nicknames: &[u16]) -> Payload {
        let mut bytes = vec![nicknames.len() as u8];
        bytes.extend(nicknames.iter().flat_map(|nickname| nickname.to_be_bytes()));
        Payload { bytes }
    }

    /// The form with VLAN blocks, of which there is at least one.
    pub fn blocks(mut self, blocks: &[(u16, u16)]) -> Vec<u8> {
        self.bytes.push(blocks.len() as u8);
        self.bytes.extend(vlan_blocks(blocks));
        self.bytes
    }

    /// The form with TLVs.
    pub fn tlvs(mut self, tlvs: &[(u8, Vec<u8>)]) -> Vec<u8> {
        self.bytes.push(0);
        for (kind, value) in tlvs {
            self.bytes.push(*kind);
            self.bytes.push(value.len() as u8);
            self.bytes.extend(value);
        }
        self.bytes
    }
}

/// The value of a type 1 TLV.
pub fn vlan_blocks(blocks: &[(u16, u16)]) -> Vec<u8> {
    let numbers = blocks.iter().flat_map(|(start, end)| [start, end]);
    numbers.flat_map(|number| number.to_be_bytes()).collect()
}

/// The three bytes of a fine-grained label.
pub fn fine(label: u32) -> [u8; 3] {
    let [_, bytes @ ..] = label.to_be_bytes();
    bytes
}
