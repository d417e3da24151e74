//! Random settings, tables, payloads and frames, good and damaged.
//!
//! Labels, addresses and nicknames come from small pools, so that lookups hit, learning refreshes
//! and flushes clear.

use crate::random::Random;
use crate::reference::{Settings, OLD_RECORD, RECORD, SLOTS, TABLE};

const MASK_48: u64 = (1 << 48) - 1;
const GROUP: u64 = 1 << 40;
const RESERVED: u64 = 0x0180_C200_0040;
/// The first of the addresses that 2026-09 keeps out of compaction; the others end with 01 to 0F and with 21.
const CONTROL: u64 = 0x0180_C200_0000;

/// The values that tables, payloads, frames and lookups of one case share.
pub struct Pool {
    pub vlans: Vec<u16>,
    pub fine: Vec<u32>,
    pub macs: Vec<u64>,
    pub nicknames: Vec<u16>,
    pub confidences: Vec<u8>,
}

impl Pool {
    pub fn new(random: &mut Random) -> Pool {
        let mut pool = Pool {
            vlans: Vec::new(),
            fine: Vec::new(),
            macs: Vec::new(),
            nicknames: Vec::new(),
            confidences: Vec::new(),
        };
        for _ in 0..random.length(1, 3) {
            pool.vlans.push(match random.below(3) {
                0 => random.pick(&[0x001, 0x002, 0x00A, 0x7FF, 0x800, 0xFFD, 0xFFE]),
                _ => random.between(0x001, 0xFFE) as u16,
            });
            pool.fine.push(match random.below(4) {
                0 => random.pick(&[
                    0, 1, 10, 0xFFE, 0xFFF, 0x1000, 0xF_FFFF, 0xFF_FFFE, 0xFF_FFFF,
                ]),
                // The number of a VLAN, as another label.
                1 => u32::from(random.pick(&pool.vlans)),
                _ => random.below(1 << 24) as u32,
            });
        }
        let base = random.number() & MASK_48 & !GROUP;
        pool.macs.push(base);
        for _ in 0..random.length(0, 3) {
            let mac = match random.below(5) {
                // Neighbours, and addresses that differ in one bit.
                0 => base.wrapping_add(1),
                1 => base.wrapping_sub(1),
                2 => base ^ (1 << random.below(48)),
                3 => random.pick(&[0, 1, 0x0200_0000_0001, 0xFEFF_FFFF_FFFF]),
                _ => random.number(),
            };
            pool.macs.push(mac & MASK_48 & !GROUP);
        }
        for _ in 0..random.length(1, 3) {
            pool.nicknames.push(match random.below(3) {
                0 => random.pick(&[0x0001, 0x0002, 0x00FF, 0x0100, 0xFFBE, 0xFFBF]),
                _ => random.between(0x0001, 0xFFBF) as u16,
            });
        }
        pool.confidences = vec![random.byte(), random.pick(&[0, 1, 20, 254, 255])];
        pool
    }

    pub fn vlan(&self, random: &mut Random) -> u16 {
        random.pick(&self.vlans)
    }

    pub fn fine(&self, random: &mut Random) -> u32 {
        random.pick(&self.fine)
    }

    pub fn mac(&self, random: &mut Random) -> u64 {
        random.pick(&self.macs)
    }

    pub fn nickname(&self, random: &mut Random) -> u16 {
        random.pick(&self.nicknames)
    }
}

// Settings

/// Settings in their ranges.
pub fn good_settings(random: &mut Random, pool: &Pool) -> Settings {
    let address = |random: &mut Random| match random.below(4) {
        0 => pool.mac(random),
        1 => random.pick(&[0, 1, 0xFEFF_FFFF_FFFF, 0x0080_C200_0040]),
        _ => random.number() & MASK_48 & !GROUP,
    };
    let port = address(random);
    let mut inner = address(random);
    while inner == port {
        inner = (inner + 1) & MASK_48 & !GROUP;
    }
    Settings {
        port,
        inner,
        nickname: match random.below(3) {
            0 => random.pick(&[0x0001, 0xFFBF]),
            1 => u32::from(pool.nickname(random)),
            _ => random.between(0x0001, 0xFFBF) as u32,
        },
        compact: u32::from(!random.one_in(4)),
        confidence: match random.below(3) {
            0 => random.pick(&[0, 1, 20, 254, 255]),
            1 => random.below(256) as u32,
            _ => u32::from(random.pick(&pool.confidences)),
        },
        seconds: match random.below(3) {
            0 => random.pick(&[0, 10, 11, 300, 8190, 8191]),
            _ => random.between(10, 8191) as u32,
        },
        multihomed: 0,
        smart: 0,
    }
}

/// Puts one or two settings at, just outside or far outside of their ranges.
pub fn disturb_settings(random: &mut Random, settings: &mut Settings) {
    for _ in 0..random.length(1, 2) {
        match random.below(8) {
            0 => settings.port = edge_address(random, settings.port),
            1 => settings.inner = edge_address(random, settings.inner),
            2 => settings.inner = settings.port,
            3 => {
                settings.nickname = random.pick(&[
                    0x0000,
                    0x0001,
                    0xFFBF,
                    0xFFC0,
                    0xFFFF,
                    0x1_0000,
                    0x1_0001,
                    u32::MAX,
                ])
            }
            4 => settings.compact = random.pick(&[0, 1, 2, 3, 0x100, 0x101, 1 << 31, u32::MAX]),
            5 => settings.confidence = random.pick(&[0, 255, 256, 257, 0x1_0000, u32::MAX]),
            6 => {
                settings.seconds = random.pick(&[
                    0,
                    1,
                    9,
                    10,
                    8191,
                    8192,
                    8193,
                    0xFFFF,
                    0x1_0000,
                    0x1_0000 + 300,
                    u32::MAX,
                ])
            }
            _ => {
                *settings = Settings {
                    port: random.number(),
                    inner: random.number(),
                    nickname: random.number() as u32,
                    compact: random.number() as u32,
                    confidence: random.number() as u32,
                    seconds: random.number() as u32,
                    multihomed: 0,
                    smart: 0,
                }
            }
        }
    }
}

/// An address that may be a group address or 2^48 and more.
pub fn edge_address(random: &mut Random, address: u64) -> u64 {
    match random.below(5) {
        0 => address | GROUP,
        1 => address | (1 << random.between(48, 63)),
        2 => random.pick(&[
            MASK_48,
            1 << 48,
            u64::MAX,
            RESERVED,
            RESERVED + 2,
            0xFEFF_FFFF_FFFF,
        ]),
        3 => random.number(),
        _ => random.number() & MASK_48,
    }
}

/// Settings, now and then outside their ranges.
pub fn settings(random: &mut Random, pool: &Pool) -> Settings {
    let mut settings = good_settings(random, pool);
    if random.one_in(25) {
        disturb_settings(random, &mut settings);
    }
    settings
}

// Records and tables

/// The fields of a record as they lie in it, good or not.
#[derive(Clone, Copy, Debug)]
pub struct Raw {
    pub state: u8,
    pub kind: u8,
    pub label: u32,
    pub mac: u64,
    pub nickname: u16,
    pub confidence: u8,
    pub seconds: u16,
    /// The byte behind the seconds: the multihomed bit, then 7 bits that are 0 in a good record.
    pub last: u8,
}

/// The multihomed bit in that byte.
pub const MARK: u8 = 0x80;

impl Raw {
    pub fn bytes(&self) -> [u8; RECORD] {
        let mut bits = u128::from(self.state & 3);
        bits = (bits << 1) | u128::from(self.kind & 1);
        bits = (bits << 24) | u128::from(self.label & 0xFF_FFFF);
        bits = (bits << 48) | u128::from(self.mac & MASK_48);
        bits = (bits << 16) | u128::from(self.nickname);
        bits = (bits << 8) | u128::from(self.confidence);
        bits = (bits << 13) | u128::from(self.seconds & 0x1FFF);
        bits = (bits << 8) | u128::from(self.last);
        let mut bytes = [0; RECORD];
        bytes.copy_from_slice(&bits.to_be_bytes()[UNUSED..]);
        bytes
    }

    pub fn of(bytes: &[u8]) -> Raw {
        let mut all = [0; 16];
        all[UNUSED..].copy_from_slice(bytes);
        let bits = u128::from_be_bytes(all);
        Raw {
            state: (bits >> 118) as u8 & 3,
            kind: (bits >> 117) as u8 & 1,
            label: (bits >> 93) as u32 & 0xFF_FFFF,
            mac: (bits >> 45) as u64 & MASK_48,
            nickname: (bits >> 29) as u16,
            confidence: (bits >> 21) as u8,
            seconds: (bits >> 8) as u16 & 0x1FFF,
            last: bits as u8,
        }
    }
}

/// The bytes of a 128-bit number in front of a record's.
const UNUSED: usize = 16 - RECORD;

/// A good record of the pool, learned or configured.
pub fn good_record(random: &mut Random, pool: &Pool) -> Raw {
    let kind = random.below(2) as u8;
    Raw {
        state: if random.one_in(4) { 2 } else { 1 },
        kind,
        label: if kind == 0 {
            u32::from(pool.vlan(random))
        } else {
            pool.fine(random)
        },
        mac: pool.mac(random),
        nickname: pool.nickname(random),
        confidence: match random.below(2) {
            0 => random.pick(&pool.confidences),
            _ => random.byte(),
        },
        seconds: match random.below(3) {
            0 => random.pick(&[0, 1, 9, 10, 299, 300, 301, 4096, 8190, 8191]),
            _ => random.below(8192) as u16,
        },
        last: if random.one_in(3) { MARK } else { 0 },
    }
}

/// The ways in which a record is spoilt, by number; see `spoilt_record`.
const SPOILT_WAYS: u64 = 12;

fn spoilt_record(random: &mut Random, pool: &Pool) -> Raw {
    let mut record = good_record(random, pool);
    match random.below(SPOILT_WAYS) {
        0 => record.state = 3,
        1 => record.state = 0,
        2 => {
            // State 0 with one other bit.
            record = Raw::of(&(1u128 << random.below(118)).to_be_bytes()[UNUSED..]);
        }
        3 => (record.kind, record.label) = (0, 0),
        4 => (record.kind, record.label) = (0, 0xFFF),
        5 => {
            let vlan = u32::from(pool.vlan(random));
            (record.kind, record.label) = (0, vlan | (1 << random.between(12, 15)));
        }
        6 => {
            let vlan = u32::from(pool.vlan(random));
            (record.kind, record.label) = (0, vlan | (1 << random.between(16, 23)));
        }
        7 => record.mac |= GROUP,
        8 => record.nickname = 0,
        9 => record.nickname = random.between(0xFFC0, 0xFFFF) as u16,
        // One of the seven bits behind the multihomed one, or any of them.
        10 => record.last |= 1 << random.below(7),
        _ => record.last |= random.between(1, 0x7F) as u8,
    }
    record
}

/// The slots of a table of good length.
fn slots(random: &mut Random) -> usize {
    match random.below(1000) {
        0..=3 => random.pick(&[SLOTS - 1, SLOTS, SLOTS]),
        4..=6 => random.length(300, SLOTS),
        7..=50 => random.length(41, 300),
        51..=400 => random.length(1, 4),
        _ => random.length(5, 40),
    }
}

/// A length that is refused.
fn bad_length(random: &mut Random) -> usize {
    match random.below(20) {
        0 => 100_000,
        1 => TABLE + 1,
        2 => TABLE + RECORD,
        3 => TABLE - 1,
        4..=7 => 0,
        8..=9 => RECORD - 1,
        10..=11 => RECORD + 1,
        12..=13 => random.length(1, RECORD - 1),
        14 => TABLE + RECORD * random.length(1, 200),
        // Lengths of older tables: the longest, and one of some records.
        15 => 57_344,
        16 => OLD_RECORD * random.length(1, 14),
        _ => RECORD * random.length(0, 40) + random.length(1, RECORD - 1),
    }
}

/// A table of any length and any bytes.
pub fn table(random: &mut Random, pool: &Pool) -> Vec<u8> {
    if random.one_in(25) {
        let length = bad_length(random);
        let mut bytes = Vec::with_capacity(length + RECORD);
        if random.one_in(2) {
            return random.bytes(length);
        }
        while bytes.len() < length {
            bytes.extend(good_record(random, pool).bytes());
        }
        bytes.truncate(length);
        return bytes;
    }
    good_length_table(random, pool)
}

/// A table of good length and any bytes.
pub fn good_length_table(random: &mut Random, pool: &Pool) -> Vec<u8> {
    let slots = slots(random);
    let mut bytes = vec![0; slots * RECORD];
    let records = bytes.chunks_exact_mut(RECORD);
    match random.below(20) {
        // All free.
        0 => {}
        // Any bytes.
        1 => random.fill(&mut bytes),
        // Any bytes, rarely spoilt by label, address and nickname.
        2 => {
            for slot in records {
                let mut record = Raw::of(&random.bytes(RECORD));
                record.mac &= !GROUP;
                if !random.one_in(4) {
                    record.last &= MARK;
                }
                if record.kind == 0 {
                    record.label &= 0xFFF;
                }
                slot.copy_from_slice(&record.bytes());
            }
        }
        // One spoilt record or none among free ones, or among good ones.
        3 | 4 => {
            let full = random.one_in(2);
            let spoilt = random.length(0, slots);
            for (number, slot) in records.enumerate() {
                if number == spoilt {
                    slot.copy_from_slice(&spoilt_record(random, pool).bytes());
                } else if full {
                    slot.copy_from_slice(&good_record(random, pool).bytes());
                }
            }
        }
        // A ladder: neighbouring labels, and neighbouring addresses now and then.
        5..=7 => ladder(random, pool, &mut bytes),
        // Full of records that are not in the pool's labels, with a few of the pool.
        8 => {
            for slot in records {
                let mut record = good_record(random, pool);
                if !random.one_in(8) {
                    record.kind = 1;
                    record.label = random.below(1 << 24) as u32;
                }
                slot.copy_from_slice(&record.bytes());
            }
        }
        // One free slot, or none, among good and spoilt records.
        9 => {
            let free = random.length(0, slots);
            for (number, slot) in records.enumerate() {
                if number != free {
                    let record = match random.below(4) {
                        0 => spoilt_record(random, pool),
                        _ => good_record(random, pool),
                    };
                    slot.copy_from_slice(&record.bytes());
                }
            }
        }
        // Full of good records: with small pools, many pairs are there twice.
        10..=11 => {
            for slot in records {
                slot.copy_from_slice(&good_record(random, pool).bytes());
            }
        }
        // A mixture.
        class => {
            let free = if class < 15 { 4 } else { 1 };
            for slot in records {
                match random.below(10 + free) {
                    0..=1 => slot.copy_from_slice(&spoilt_record(random, pool).bytes()),
                    2 => {
                        // One bit of a good record changed.
                        let mut record = good_record(random, pool).bytes();
                        record[random.length(0, RECORD - 1)] ^= 1 << random.below(8);
                        slot.copy_from_slice(&record);
                    }
                    3..=9 => slot.copy_from_slice(&good_record(random, pool).bytes()),
                    _ => {}
                }
            }
        }
    }
    bytes
}

/// A table with records of many nicknames or few, learned and configured, among free and spoilt slots; and of any kind.
pub fn crowd(random: &mut Random) -> Vec<u8> {
    let pool = Pool::new(random);
    if random.one_in(4) {
        return table(random, &pool);
    }
    let slots = match random.below(24) {
        0 => SLOTS,
        1 => random.length(1, SLOTS),
        _ => random.length(1, 60),
    };
    let first = random.between(0x0001, 0xFFBF - SLOTS as u64) as u16;
    let most = random.pick(&[1, 2, 12, 200, SLOTS as u64]);
    let other = random.pick(&[0, 1, 4, 40, 64]);
    let mut bytes = Vec::with_capacity(slots * RECORD);
    for _ in 0..slots {
        let mut record = match random.below(64) {
            number if number < other && random.one_in(2) => spoilt_record(random, &pool),
            number if number < other => Raw::of(&[0; RECORD]),
            _ => good_record(random, &pool),
        };
        if (1..=2).contains(&record.state) && (0x0001..=0xFFBF).contains(&record.nickname) {
            record.nickname = match random.below(12) {
                0 => random.pick(&[0x0001, 0x00FF, 0x0100, 0xFFBE, 0xFFBF]),
                _ => first + random.below(most) as u16,
            };
        }
        bytes.extend(record.bytes());
    }
    bytes
}

/// A table of so many learned and configured records, each of another nickname, in any order.
pub fn all_different(random: &mut Random, slots: usize) -> Vec<u8> {
    let pool = Pool::new(random);
    let mut nicknames: Vec<u16> = (0x0001..=0xFFBF).collect();
    let mut bytes = Vec::with_capacity(slots * RECORD);
    for slot in 0..slots {
        let other = random.length(slot, nicknames.len() - 1);
        nicknames.swap(slot, other);
        let mut record = good_record(random, &pool);
        record.nickname = nicknames[slot];
        bytes.extend(record.bytes());
    }
    bytes
}

/// A table of so many spoilt records.
pub fn all_spoilt(random: &mut Random, slots: usize) -> Vec<u8> {
    let pool = Pool::new(random);
    let records = (0..slots).map(|_| spoilt_record(random, &pool).bytes());
    records.flatten().collect()
}

/// An older table, of records of 14 bytes: any bytes, mostly of a length that it may have.
pub fn older_table(random: &mut Random) -> Vec<u8> {
    let length = match random.below(20) {
        0 => 0,
        1 => random.length(1, OLD_RECORD - 1),
        2 => OLD_RECORD * random.length(0, 40) + random.length(1, OLD_RECORD - 1),
        3 if random.one_in(4) => OLD_RECORD * SLOTS + random.pick(&[1, OLD_RECORD - 1, OLD_RECORD]),
        4 if random.one_in(4) => random.pick(&[RECORD * SLOTS, OLD_RECORD * (SLOTS + 100)]),
        5 if random.one_in(4) => OLD_RECORD * SLOTS,
        // Lengths that fit both widths.
        6 => OLD_RECORD * RECORD * random.length(1, 4),
        7 => RECORD * random.length(1, 13),
        _ => OLD_RECORD * random.length(1, 40),
    };
    random.bytes(length)
}

/// Neighbouring labels from slot to slot, around a label of the pool or an end of the numbering.
fn ladder(random: &mut Random, pool: &Pool, bytes: &mut [u8]) {
    let slots = (bytes.len() / RECORD) as u32;
    let kind = random.below(2) as u8;
    let middle = match (kind, random.below(3)) {
        (0, 0) => random.pick(&[0x001, 0xFFE]),
        (0, _) => u32::from(pool.vlan(random)),
        (_, 0) => random.pick(&[0, 0xFF_FFFF]),
        (_, _) => pool.fine(random),
    };
    let first = middle.saturating_sub(random.below(u64::from(slots) + 1) as u32);
    let first_mac = pool
        .mac(random)
        .saturating_sub(random.below(u64::from(slots) + 1));
    let step_macs = random.one_in(2);
    let one_nickname = random.one_in(2);
    let nickname = pool.nickname(random);
    for (label, slot) in (first..).zip(bytes.chunks_exact_mut(RECORD)) {
        let mut record = good_record(random, pool);
        record.kind = kind;
        record.label = label;
        if step_macs {
            record.mac = (first_mac + u64::from(label - first)) & MASK_48 & !GROUP;
        }
        if one_nickname {
            record.nickname = nickname;
        }
        slot.copy_from_slice(&record.bytes());
    }
}

/// A record of the table, if it holds one.
fn some_record(random: &mut Random, table: &[u8]) -> Option<Raw> {
    let slots = table.len() / RECORD;
    if slots == 0 {
        return None;
    }
    let slot = match random.below(4) {
        0 => 0,
        1 => slots - 1,
        _ => random.length(0, slots - 1),
    };
    Some(Raw::of(&table[slot * RECORD..(slot + 1) * RECORD]))
}

/// Kind, label and address of a lookup.
pub fn key(random: &mut Random, pool: &Pool, table: &[u8]) -> (u32, u32, u64) {
    // Of a record of the table, good or spoilt, or of the pool.
    let from_table = if random.one_in(4) {
        None
    } else {
        some_record(random, table)
    };
    let record = from_table.unwrap_or_else(|| good_record(random, pool));
    let (mut kind, mut label, mut mac) = (u32::from(record.kind), record.label, record.mac);
    // Mostly as it is; else with one thing changed.
    match random.below(24) {
        0 => kind ^= 1,
        1 => kind = random.pick(&[2, 2, 2, 3, 0x100, 0x101, 1 << 31, u32::MAX, u32::MAX - 1]),
        2 => kind |= 1 << random.between(1, 31),
        3 => label |= 1 << random.between(12, 15),
        4 => label |= 1 << random.between(16, 23),
        5 => label |= 1 << random.between(24, 31),
        6 => label = random.pick(&[0, 1, 0xFFE, 0xFFF, 0x1000, 0xFF_FFFF, 0x100_0000, u32::MAX]),
        7 => label ^= 1 << random.below(24),
        8 => label = random.number() as u32,
        9 => mac |= 1 << random.between(48, 63),
        10 => mac ^= 1 << random.below(48),
        11 => mac |= GROUP,
        12 => mac = random.number(),
        13 => mac = random.pick(&[0, MASK_48, 1 << 48, u64::MAX]),
        _ => {}
    }
    (kind, label, mac)
}

/// Seconds to age by.
pub fn seconds(random: &mut Random, table: &[u8]) -> u16 {
    match random.below(4) {
        0 => random.pick(&[0, 1, 9, 10, 299, 300, 301, 8190, 8191, 8192, 8193, 65535]),
        1 => random.number() as u16,
        _ => match some_record(random, table) {
            // At, just below and just above the seconds of a record.
            Some(record) => (record.seconds + 1).saturating_sub(random.below(3) as u16),
            None => random.below(8192) as u16,
        },
    }
}

// Flush payloads

/// The slot and k of a portion of a table with so many bytes: at and beside the ends, and any.
pub fn portion(random: &mut Random, table: usize) -> (u64, u64) {
    let n = (table / RECORD) as u64;
    let slot = match random.below(16) {
        0 => n,
        1 => n + 1,
        2 => random.pick(&[u64::MAX, 1 << 32, 1 << 16, n.wrapping_neg()]),
        3 => n.saturating_sub(1),
        4..=6 => 0,
        _ => random.below(n.max(1)),
    };
    let k = match random.below(16) {
        0 => 0,
        1..=2 => 1,
        3 => n.saturating_sub(1),
        4 => n,
        5 => n + 1,
        6 => random.pick(&[u64::MAX, 1 << 32, 1 << 16, u64::MAX - slot]),
        7 => n.saturating_sub(slot),
        8..=11 => random.below(8),
        _ => random.below(n + 2),
    };
    (slot, k)
}

/// The ingress number given to the flush call.
pub fn ingress(random: &mut Random, pool: &Pool) -> u32 {
    let nickname = u32::from(pool.nickname(random));
    match random.below(20) {
        0 => random.pick(&[0, 0xFFC0, 0xFFFF, 0x1_0000, u32::MAX]),
        1 => nickname | (1 << random.between(16, 31)),
        2 => random.number() as u32,
        _ => nickname,
    }
}

/// A payload that follows the grammar: K-nicks, nicknames, K-VLBs, blocks or TLVs.
pub fn good_payload(random: &mut Random, pool: &Pool) -> Vec<u8> {
    let mut payload = Vec::new();
    let nicknames = match random.below(200) {
        0 => 255,
        1..=100 => 0,
        _ => random.length(1, 4),
    };
    payload.push(nicknames as u8);
    for _ in 0..nicknames {
        let nickname = match random.below(8) {
            0 => random.pick(&[0x0000, 0xFFBF, 0xFFC0, 0xFFFF]),
            1 => random.number() as u16,
            _ => pool.nickname(random),
        };
        payload.extend(nickname.to_be_bytes());
    }
    if random.one_in(3) {
        let blocks = match random.below(200) {
            0 => 255,
            _ => random.length(1, 4),
        };
        payload.push(blocks as u8);
        for _ in 0..blocks {
            payload.extend(vlan_block(random, pool));
        }
        // Bytes after the blocks are ignored.
        match random.below(4) {
            0 => payload.extend(random_bytes_up_to(random, 12)),
            1 => append_tlv(random, pool, &mut payload),
            _ => {}
        }
    } else {
        payload.push(0);
        let tlvs = match random.below(30_000) {
            0 => random.length(200, 1500),
            1..=300 => random.length(9, 40),
            301..=2000 => 0,
            _ => random.length(1, 6),
        };
        for _ in 0..tlvs {
            if payload.len() > 9000 {
                break;
            }
            append_tlv(random, pool, &mut payload);
        }
    }
    payload
}

fn random_bytes_up_to(random: &mut Random, most: usize) -> Vec<u8> {
    let count = random.length(0, most);
    random.bytes(count)
}

/// A VLAN near one of the pool, or an end of the numbering.
fn vlan_near(random: &mut Random, pool: &Pool) -> u16 {
    match random.below(8) {
        0 => random.pick(&[0x000, 0x001, 0xFFE, 0xFFF]),
        1 => random.below(0x1000) as u16,
        _ => (pool.vlan(random) + random.below(5) as u16).saturating_sub(2) & 0xFFF,
    }
}

/// A start at or below a VLAN of the pool, an end at or above it; now and then any two.
fn vlan_block(random: &mut Random, pool: &Pool) -> [u8; 4] {
    let (mut start, mut end) = match random.below(6) {
        0 => (vlan_near(random, pool), vlan_near(random, pool)),
        1 => {
            let vlan = pool.vlan(random);
            (vlan, vlan)
        }
        2 => (
            random.below(0x1000) as u16,
            random.pick(&[0x000, 0x001, 0xFFE, 0xFFF]),
        ),
        3 => (
            random.pick(&[0x000, 0x001, 0xFFE, 0xFFF]),
            random.below(0x1000) as u16,
        ),
        _ => {
            let vlan = pool.vlan(random);
            (
                vlan.saturating_sub(random.below(20) as u16),
                (vlan + random.below(20) as u16).min(0xFFF),
            )
        }
    };
    if random.one_in(8) {
        (start, end) = (end, start);
    }
    // Reserved bits are not read.
    if random.one_in(4) {
        start |= (random.below(16) as u16) << 12;
        end |= (random.below(16) as u16) << 12;
    }
    let ([a, b], [c, d]) = (start.to_be_bytes(), end.to_be_bytes());
    [a, b, c, d]
}

fn three_bytes(number: u32) -> [u8; 3] {
    let [_, a, b, c] = number.to_be_bytes();
    [a, b, c]
}

pub fn six_bytes(number: u64) -> [u8; 6] {
    let [_, _, bytes @ ..] = number.to_be_bytes();
    bytes
}

fn fine_near(random: &mut Random, pool: &Pool) -> u32 {
    match random.below(8) {
        0 => random.pick(&[0, 1, 0xFF_FFFE, 0xFF_FFFF]),
        1 => random.below(1 << 24) as u32,
        2 => u32::from(pool.vlan(random)),
        _ => (pool.fine(random) + random.below(5) as u32).saturating_sub(2) & 0xFF_FFFF,
    }
}

fn mac_near(random: &mut Random, pool: &Pool) -> u64 {
    match random.below(10) {
        0 => random.pick(&[0, MASK_48, GROUP, 0xFEFF_FFFF_FFFF]),
        1 => random.number() & MASK_48,
        2 => pool.mac(random) | GROUP,
        3..=4 => (pool.mac(random) + random.below(5)).saturating_sub(2) & MASK_48,
        _ => pool.mac(random),
    }
}

/// A bit map behind a start: the number wanted lies `distance` bits behind the start.
fn map(random: &mut Random, distance: usize, most: usize) -> Vec<u8> {
    let length = match random.below(4) {
        0 => random.length(0, 3),
        1 => most.min(distance / 8 + 1 + random.length(0, 3)),
        _ => most.min(distance / 8 + 1),
    };
    let mut bytes = match random.below(4) {
        0 => vec![0xFF; length],
        1 => vec![0; length],
        _ => random.bytes(length),
    };
    if let Some(byte) = bytes.get_mut(distance / 8) {
        if !random.one_in(4) {
            *byte |= 0x80 >> (distance % 8);
        }
    }
    bytes
}

/// The value of a TLV that follows the length rule of its type.
fn value(random: &mut Random, pool: &Pool, kind: u8) -> Vec<u8> {
    // A few items, none at all, or as many as 255 bytes hold.
    let count = |random: &mut Random, most: usize| match random.below(40) {
        0 => most,
        1..=4 => 0,
        _ => random.length(1, most.min(4)),
    };
    let mut value = Vec::new();
    match kind {
        1 => {
            for _ in 0..count(random, 63) {
                value.extend(vlan_block(random, pool));
            }
        }
        2 => {
            let distance = match random.below(4) {
                0 => random.length(0, 2023),
                _ => random.length(0, 40),
            };
            let start = match random.below(8) {
                // Maps from VLAN 0, and maps that reach past FFE.
                0 => 0,
                1 => random.between(0xFE0, 0xFFF) as u16,
                _ => pool.vlan(random).saturating_sub(distance as u16),
            };
            let reserved = (random.below(16) as u16) << 12;
            value.extend((start | reserved).to_be_bytes());
            value.extend(map(random, distance, 253));
        }
        3 => {
            for _ in 0..count(random, 42) {
                let (mut start, mut end) = match random.below(3) {
                    0 => (fine_near(random, pool), fine_near(random, pool)),
                    1 => {
                        let label = pool.fine(random);
                        (label, label)
                    }
                    _ => {
                        let label = pool.fine(random);
                        (
                            label.saturating_sub(random.below(20) as u32),
                            (label + random.below(20) as u32).min(0xFF_FFFF),
                        )
                    }
                };
                if random.one_in(8) {
                    (start, end) = (end, start);
                }
                value.extend(three_bytes(start));
                value.extend(three_bytes(end));
            }
        }
        4 => {
            for _ in 0..count(random, 85) {
                value.extend(three_bytes(fine_near(random, pool)));
            }
        }
        5 => {
            let distance = match random.below(4) {
                0 => random.length(0, 2015),
                _ => random.length(0, 40),
            };
            let start = match random.below(8) {
                0 => random.pick(&[0, 1]),
                1 => random.between(0xFF_FFE0, 0xFF_FFFF) as u32,
                _ => pool.fine(random).saturating_sub(distance as u32),
            };
            value.extend(three_bytes(start));
            value.extend(map(random, distance, 252));
        }
        6 => {}
        7 => {
            for _ in 0..count(random, 42) {
                value.extend(six_bytes(mac_near(random, pool)));
            }
        }
        8 => {
            for _ in 0..count(random, 21) {
                let (mut start, mut end) = match random.below(3) {
                    0 => (mac_near(random, pool), mac_near(random, pool)),
                    1 => {
                        let mac = pool.mac(random);
                        (mac, mac)
                    }
                    _ => {
                        let mac = pool.mac(random);
                        let end = (mac + random.below(20)).min(MASK_48);
                        (mac.saturating_sub(random.below(20)), end)
                    }
                };
                if random.one_in(5) {
                    (start, end) = (end, start);
                }
                value.extend(six_bytes(start));
                value.extend(six_bytes(end));
            }
        }
        _ => value = random_bytes_up_to(random, 12),
    }
    value
}

fn append_tlv(random: &mut Random, pool: &Pool, payload: &mut Vec<u8>) {
    let kind = match random.below(40) {
        0..=3 => random.pick(&[0, 9, 10, 128, 254, 255]),
        4 => random.between(9, 255) as u8,
        5..=6 => 6,
        7..=12 => 7,
        13..=18 => 8,
        _ => random.between(1, 5) as u8,
    };
    let value = value(random, pool, kind);
    payload.push(kind);
    payload.push(value.len() as u8);
    payload.extend(value);
}

/// A TLV with any length byte and as many value bytes, or with one more or one less than it says.
fn append_any_tlv(random: &mut Random, payload: &mut Vec<u8>) {
    payload.push(random.below(10) as u8);
    let length = random.length(0, 26);
    payload.push(length as u8);
    let there = match random.below(8) {
        0 => length + 1,
        1 => length.saturating_sub(1),
        _ => length,
    };
    payload.extend(random.bytes(there));
}

/// One byte changed: a bit, one more or less, or any value.
pub fn change_one_byte(random: &mut Random, bytes: &mut [u8]) {
    if bytes.is_empty() {
        return;
    }
    // Mostly near the front, where the fields are.
    let last = if random.one_in(4) {
        bytes.len() - 1
    } else {
        (bytes.len() - 1).min(70)
    };
    let at = random.length(0, last);
    bytes[at] = match random.below(4) {
        0 => bytes[at] ^ (1 << random.below(8)),
        1 => bytes[at].wrapping_add(1),
        2 => bytes[at].wrapping_sub(1),
        _ => random.byte(),
    };
}

/// A payload, good or corrupt.
pub fn payload(random: &mut Random, pool: &Pool) -> Vec<u8> {
    let mut payload = good_payload(random, pool);
    match random.below(20) {
        // Any bytes.
        0 => payload = random_bytes_up_to(random, 20),
        // Any TLVs behind a good start.
        1 => {
            payload = vec![0, 0];
            for _ in 0..random.length(1, 3) {
                append_any_tlv(random, &mut payload);
            }
            append_tlv(random, pool, &mut payload);
        }
        2 => append_any_tlv(random, &mut payload),
        // A lone last byte.
        3 => payload.push(random.below(10) as u8),
        // Padding.
        4..=5 => payload.resize(payload.len() + random.length(0, 20), 0),
        _ => {}
    }
    payload
}

// Frames

/// A frame by its fields, good or not, to be put together in either format.
#[derive(Clone, Debug)]
pub struct Frame {
    pub compact: bool,
    /// Read in the General format only.
    pub outer_destination: u64,
    pub outer_source: u64,
    pub outer_tag: Option<u16>,
    pub trill: u16,
    pub version: u8,
    pub reserved: u8,
    pub multicast: bool,
    pub option_length: u8,
    pub hop_count: u8,
    pub egress: u16,
    pub ingress: u16,
    pub options: Vec<u8>,
    pub inner_destination: u64,
    pub inner_source: u64,
    pub label: Vec<u8>,
    pub content: Vec<u8>,
}

impl Frame {
    pub fn bytes(&self) -> Vec<u8> {
        let mut bytes = Vec::new();
        if !self.compact {
            bytes.extend(six_bytes(self.outer_destination));
            bytes.extend(six_bytes(self.outer_source));
            if let Some(tag) = self.outer_tag {
                bytes.extend(0x8100u16.to_be_bytes());
                bytes.extend(tag.to_be_bytes());
            }
            self.append_header(&mut bytes);
        }
        bytes.extend(six_bytes(self.inner_destination));
        bytes.extend(six_bytes(self.inner_source));
        bytes.extend(&self.label);
        if self.compact {
            self.append_header(&mut bytes);
        }
        bytes.extend(&self.content);
        bytes
    }

    fn append_header(&self, bytes: &mut Vec<u8>) {
        bytes.extend(self.trill.to_be_bytes());
        let first = (u16::from(self.version & 3) << 14)
            | (u16::from(self.reserved & 3) << 12)
            | (u16::from(self.multicast) << 11)
            | (u16::from(self.option_length & 0x1F) << 6)
            | u16::from(self.hop_count & 0x3F);
        bytes.extend(first.to_be_bytes());
        bytes.extend(self.egress.to_be_bytes());
        bytes.extend(self.ingress.to_be_bytes());
        bytes.extend(&self.options);
    }

    /// Makes the content so long that the frame has the length, if that is possible.
    pub fn set_length(&mut self, random: &mut Random, length: usize) {
        let other = self.bytes().len() - self.content.len();
        let wanted = length.saturating_sub(other);
        let more = wanted.saturating_sub(self.content.len());
        self.content.extend(random.bytes(more));
        self.content.truncate(wanted);
    }
}

fn vlan_tag(random: &mut Random, vlan: u16) -> Vec<u8> {
    let priority = (random.below(16) as u16) << 12;
    [
        0x8100u16.to_be_bytes(),
        (priority | (vlan & 0xFFF)).to_be_bytes(),
    ]
    .concat()
}

fn fine_tag(random: &mut Random, label: u32) -> Vec<u8> {
    let high = ((random.below(16) as u16) << 12) | (label >> 12) as u16 & 0xFFF;
    let low = ((random.below(16) as u16) << 12) | (label & 0xFFF) as u16;
    [0x893B, high, 0x893B, low].map(u16::to_be_bytes).concat()
}

fn channel_content(random: &mut Random, protocol: u16, payload: &[u8]) -> Vec<u8> {
    let flags = (random.number() as u16) & 0xFFF0;
    let mut content = [0x8946, protocol & 0xFFF, flags]
        .map(u16::to_be_bytes)
        .concat();
    content.extend(payload);
    content
}

pub fn data_content(random: &mut Random) -> Vec<u8> {
    let ethertype: u16 = match random.below(12) {
        0 => random.pick(&[
            0x8100, 0x893B, 0x22F3, 0x8945, 0x8947, 0x4689, 0x0946, 0x8906,
        ]),
        1 => random.number() as u16,
        _ => random.pick(&[0x0800, 0x0806, 0x86DD]),
    };
    let mut content = ethertype.to_be_bytes().to_vec();
    let length = match random.below(400) {
        0 => random.length(1000, 9300),
        1..=4 => 1500,
        5..=100 => random.length(0, 2),
        _ => random.length(3, 50),
    };
    content.extend(random.bytes(length));
    content
}

/// A frame that a port with these settings accepts, or sends onward, in either format.
pub fn good_frame(random: &mut Random, pool: &Pool, settings: &Settings) -> Frame {
    let compact = if settings.compact == 1 {
        random.one_in(2)
    } else {
        random.one_in(12)
    };
    let multicast = random.one_in(3);
    let port = settings.port & MASK_48;
    let inner = settings.inner & MASK_48;
    let own = settings.nickname as u16;
    let option_length = match random.below(4) {
        0 => random.below(32) as u8,
        1 => random.pick(&[1, 31]),
        _ => 0,
    };
    let mut ingress = pool.nickname(random);
    if ingress == own {
        ingress = random.pick(&[0x0001, 0x1234, 0xFFBF]);
    }
    let (content, channel) = match random.below(20) {
        0..=4 => {
            let payload = if random.one_in(5) {
                payload(random, pool)
            } else {
                good_payload(random, pool)
            };
            (channel_content(random, 0x009, &payload), true)
        }
        5 => {
            let protocol = random.pick(&[0x000, 0x001, 0x008, 0x00A, 0x109, 0x019, 0x809, 0xFFF]);
            let payload = random_bytes_up_to(random, 10);
            (channel_content(random, protocol, &payload), true)
        }
        _ => (data_content(random), false),
    };
    let inner_destination = match random.below(12) {
        _ if channel && !random.one_in(20) => {
            if compact || random.one_in(2) {
                inner
            } else {
                RESERVED + 2
            }
        }
        0 => inner,
        1 => random.pick(&[MASK_48, 0x0180_C200_003F, 0x0180_C200_0050]),
        2 => random.number() & MASK_48,
        3 if !compact => port,
        4 if !compact => control(random),
        5 => beside_control(random),
        _ => pool.mac(random),
    };
    let label = if random.one_in(2) {
        let vlan = pool.vlan(random);
        vlan_tag(random, vlan)
    } else {
        let label = pool.fine(random);
        fine_tag(random, label)
    };
    let mut frame = Frame {
        compact,
        outer_destination: if multicast { RESERVED } else { port },
        outer_source: match random.below(3) {
            0 => pool.mac(random),
            _ => random.number() & MASK_48,
        },
        outer_tag: random.one_in(2).then_some(random.number() as u16),
        trill: 0x22F3,
        version: 0,
        reserved: random.below(4) as u8,
        multicast,
        option_length,
        hop_count: random.between(1, 63) as u8,
        egress: match random.below(8) {
            0 => pool.nickname(random),
            _ if multicast => random.between(0x0001, 0xFFBF) as u16,
            _ => own,
        },
        ingress,
        options: random.bytes(4 * usize::from(option_length)),
        inner_destination,
        inner_source: pool.mac(random),
        label,
        content,
    };
    if random.one_in(400) {
        let length = random.pick(&[
            9198, 9199, 9200, 9201, 9203, 9204, 9205, 9215, 9216, 9217, 9218,
        ]);
        frame.set_length(random, length);
    }
    frame
}

/// A control address: 01-80-C2-00-00-00 to 0F, or 21.
fn control(random: &mut Random) -> u64 {
    let ends = [0x00, 0x01, 0x0E, 0x0F, 0x21, 0x21];
    CONTROL
        + if random.one_in(3) {
            random.below(16)
        } else {
            random.pick(&ends)
        }
}

/// An address close to a control address, or one that differs from it in one byte or bit, and is none.
fn beside_control(random: &mut Random) -> u64 {
    match random.below(4) {
        0 => random.pick(&[0x10, 0x11, 0x1F, 0x20, 0x22, 0x23, 0x2F, 0x3F]) + CONTROL,
        1 => CONTROL - random.between(1, 2),
        2 => CONTROL + random.between(0x10, 0x20),
        _ => control(random) ^ (1 << random.between(8, 47)),
    }
}

/// A flush frame that a port with Compact on carries out if its payload is good, in the format said.
pub fn flush_frame(random: &mut Random, pool: &Pool, settings: &Settings, compact: bool) -> Frame {
    let payload = payload(random, pool);
    let frame = good_frame(random, pool, settings);
    let content = channel_content(random, 0x009, &payload);
    let own = settings.nickname as u16;
    let good = |nickname: &u16| (0x0001..=0xFFBF).contains(nickname) && *nickname != own;
    let others = [frame.ingress, 0x0001, 0x1234];
    Frame {
        compact,
        egress: own,
        ingress: others.into_iter().find(good).expect("two of them differ"),
        inner_destination: settings.inner & MASK_48,
        content,
        ..frame
    }
}

/// The faults that `add_fault` knows.
const FAULTS: u64 = 25;

/// Gives a frame one fault.
fn add_fault(random: &mut Random, pool: &Pool, settings: &Settings, frame: &mut Frame) {
    let reserved = RESERVED + random.below(16);
    match random.below(FAULTS) {
        // The destination in front.
        0 => {
            let destination = RESERVED + random.between(1, 15);
            if frame.compact {
                frame.inner_destination = destination;
            } else {
                frame.outer_destination = destination;
            }
        }
        1 => {
            let destination = match random.below(5) {
                0 => random.pick(&[RESERVED - 1, RESERVED, RESERVED + 16, MASK_48]),
                1 => settings.port ^ (1 << random.below(48)),
                2 => settings.inner,
                3 => pool.mac(random),
                _ => random.number(),
            };
            if frame.compact {
                frame.inner_destination = destination & MASK_48;
            } else {
                frame.outer_destination = destination & MASK_48;
            }
        }
        // 22F3.
        2 => {
            frame.trill = random.pick(&[
                0x8100, 0x893B, 0x22F2, 0x22F4, 0x23F3, 0xF322, 0x8946, 0x0000, 0x88A8,
            ])
        }
        // The header.
        3 => frame.version = random.between(1, 3) as u8,
        4 => frame.multicast = !frame.multicast,
        5 => frame.hop_count = 0,
        6 => frame.egress = random.pick(&[0x0000, 0xFFC0, 0xFFC1, 0xFFFE, 0xFFFF]),
        7 => frame.ingress = random.pick(&[0x0000, 0xFFC0, 0xFFC1, 0xFFFE, 0xFFFF]),
        8 => frame.ingress = settings.nickname as u16,
        9 => frame.egress = random.number() as u16,
        10 => frame.option_length = random.below(32) as u8,
        // The label.
        11 => {
            let ethertype: u16 = random.pick(&[0x8101, 0x0100, 0x893A, 0x88A8, 0x22F3, 0x0800]);
            frame.label[..2].copy_from_slice(&ethertype.to_be_bytes());
        }
        12 => {
            let vlan = random.pick(&[0x000, 0xFFF]);
            frame.label = vlan_tag(random, vlan);
        }
        13 => {
            let ethertype: u16 = random.pick(&[0x8100, 0x893A, 0x893C, 0x3B89, 0x22F3, 0x0000]);
            let label = pool.fine(random);
            frame.label = fine_tag(random, label);
            frame.label[4..6].copy_from_slice(&ethertype.to_be_bytes());
        }
        14 => {
            let label = random.pick(&[0, 0xFFF, 0xFF_F000, 0xFF_FFFF, 0x1000]);
            frame.label = fine_tag(random, label);
        }
        // The inner addresses.
        15 => frame.inner_source |= GROUP,
        16 => frame.inner_destination = reserved,
        17 => frame.inner_destination = settings.port & MASK_48,
        // The content.
        18 => frame.content.truncate(random.length(0, 1)),
        19 => {
            let protocol = random.pick(&[0x009, 0x009, 0x008]);
            let payload = payload(random, pool);
            frame.content = channel_content(random, protocol, &payload);
            frame.content[2] |= (random.below(16) as u8) << 4;
        }
        20 => {
            let protocol = random.pick(&[0x009, 0x009, 0x00A]);
            let payload = payload(random, pool);
            frame.content = channel_content(random, protocol, &payload);
            frame.content[5] |= random.below(16) as u8;
        }
        21 => {
            let payload = payload(random, pool);
            frame.content = channel_content(random, 0x009, &payload);
            if random.one_in(2) {
                frame.content.truncate(random.length(2, 6));
            }
        }
        // A control address in front, or one beside them; one inside.
        22 => {
            let destination = if random.one_in(3) {
                beside_control(random)
            } else {
                control(random)
            };
            if frame.compact {
                frame.inner_destination = destination;
            } else {
                frame.outer_destination = destination;
            }
        }
        23 => frame.inner_destination = control(random),
        _ => {
            let bytes = random_bytes_up_to(random, 8);
            frame.content = [&[0x89, 0x46], bytes.as_slice()].concat();
        }
    }
}

/// A frame with no fault, one or several: where there are several the order of the refusals counts.
pub fn frame(random: &mut Random, pool: &Pool, settings: &Settings) -> Frame {
    let mut frame = good_frame(random, pool, settings);
    let faults = match random.below(20) {
        0..=8 => 0,
        9..=14 => 1,
        15..=17 => 2,
        18 => 3,
        _ => random.length(4, 8),
    };
    for _ in 0..faults {
        add_fault(random, pool, settings, &mut frame);
    }
    frame
}

/// The bytes of a frame: as they are, with one byte changed, cut or continued, or any bytes.
pub fn damage(random: &mut Random, mut bytes: Vec<u8>) -> Vec<u8> {
    match random.below(40) {
        0..=5 => change_one_byte(random, &mut bytes),
        6..=8 => bytes.truncate(random.length(0, bytes.len())),
        9 => bytes.extend(random_bytes_up_to(random, 8)),
        10 => {
            let at = random.length(0, bytes.len().saturating_sub(1));
            bytes.splice(at..at, random.bytes(1));
        }
        11 => bytes = random_bytes_up_to(random, 60),
        12 => {
            let length = match random.below(20) {
                0 => random.pick(&[9215, 9216, 9217, 10_000, 70_000]),
                1 => 65_536 + random.length(14, 100),
                _ => random.pick(&[0, 1, 12, 13, 14, 15]),
            };
            let more = random.bytes(length.saturating_sub(bytes.len()));
            bytes.extend(more);
            bytes.truncate(length);
        }
        _ => {}
    }
    bytes
}

/// The lengths at which a frame or payload is cut: every one, but for the middle of long ones.
pub fn cuts(random: &mut Random, length: usize) -> Vec<usize> {
    const EACH: usize = 400;
    if length <= EACH {
        return (0..length).collect();
    }
    let mut cuts: Vec<usize> = (0..EACH / 2).collect();
    cuts.extend((0..EACH / 4).map(|_| random.length(EACH / 2, length - 1)));
    cuts.extend(length - EACH / 4..length);
    cuts
}

/// The length of an area for a result: one byte short, exact, longer, none, or any.
pub fn area_length(random: &mut Random, result: usize) -> usize {
    match random.below(20) {
        0..=1 => result.saturating_sub(1),
        2 => 0,
        3 => random.length(0, result),
        4 => result.saturating_sub(random.length(1, 17)),
        5..=9 => result,
        10..=12 => result + 1,
        13 if random.one_in(20) => 9216,
        13 if random.one_in(100) => 70_000,
        _ => result + random.length(1, 40),
    }
}

/// The length of a working area for sending: mostly just enough, near the limit, or one for a result of some length.
pub fn working_length(random: &mut Random, result: usize) -> usize {
    match random.below(16) {
        0..=8 => 9204,
        9 => 9203,
        10 => 9205,
        11 => 9216,
        12 => 0,
        _ => result,
    }
}

/// Outer source, `tagged` and `tag` of an expansion.
pub fn outer(random: &mut Random, pool: &Pool) -> (u64, u32, u32) {
    let source = if random.one_in(16) {
        let mac = pool.mac(random);
        edge_address(random, mac)
    } else {
        match random.below(3) {
            0 => pool.mac(random),
            1 => random.pick(&[0, 1, 0xFEFF_FFFF_FFFF]),
            _ => random.number() & MASK_48 & !GROUP,
        }
    };
    let tagged = match random.below(30) {
        0 => random.pick(&[2, 3, 0x100, 0x101, u32::MAX]),
        1..=12 => 0,
        _ => 1,
    };
    let tag = match random.below(16) {
        0 => random.pick(&[0x000, 0xFFF, 0x1000, 0x1001, 0x1_0001, u32::MAX]),
        1 => random.number() as u32,
        2 => random.pick(&[0x001, 0xFFE]),
        _ => random.between(0x001, 0xFFE) as u32,
    };
    (source, tagged, tag)
}
