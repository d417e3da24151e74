//! Smart-Hellos: contents and payloads, good and not.

use crate::random::Random;
use crate::reference::{Contents, Nickname, Parameters, SmartMac, Trees};

pub const CAPABILITY: u8 = 242;
pub const GENINFO: u8 = 251;

/// The payload of the request, in hexadecimal, and the numbers that it is read as.
pub const VECTOR: &str =
    "FB 09 00 0001 16 04 001E 0000  F2 14 00000000 00 06 05 40 8000 1234 08 06 0001 1234 1235 \
     FB 0F 00 0001 17 0A 40 00000A 020000000001";
pub const NUMBERS: [u64; 19] = [
    1,
    30,
    0,
    1,
    1,
    0x40,
    0x8000,
    0x1234,
    1,
    1,
    2,
    0x1234,
    0x1235,
    1,
    0,
    1,
    10,
    1,
    0x0200_0000_0001,
];

/// The bytes of hexadecimal digits.
pub fn bytes(hex: &str) -> Vec<u8> {
    let digits: String = hex.split_whitespace().collect();
    (0..digits.len() / 2)
        .map(|at| u8::from_str_radix(&digits[2 * at..2 * at + 2], 16).unwrap())
        .collect()
}

/// A contents area of these numbers.
pub fn area(numbers: &[u64]) -> Vec<u8> {
    numbers.iter().flat_map(|n| n.to_be_bytes()).collect()
}

/// A number of so many bits, its ends often.
fn field(random: &mut Random, bits: u32) -> u64 {
    let most = (1 << bits) - 1;
    match random.below(4) {
        0 => 0,
        1 => most,
        _ => random.between(0, most),
    }
}

/// The length of a list: short mostly, and now and then as long as a TLV holds.
fn count(random: &mut Random, most: usize) -> usize {
    match random.below(8) {
        0 => most,
        1 => random.length(0, most),
        _ => random.length(0, 3),
    }
}

fn several<T>(random: &mut Random, count: usize, mut one: impl FnMut(&mut Random) -> T) -> Vec<T> {
    (0..count).map(|_| one(random)).collect()
}

pub fn nicknames(random: &mut Random) -> Vec<Nickname> {
    let length = count(random, 49);
    several(random, length, |random| Nickname {
        priority: field(random, 8),
        root_priority: field(random, 16),
        nickname: field(random, 16),
    })
}

pub fn trees(random: &mut Random) -> Trees {
    let length = count(random, 123);
    Trees {
        start: field(random, 16),
        nicknames: several(random, length, |random| field(random, 16)),
    }
}

pub fn smart_mac(random: &mut Random) -> SmartMac {
    let length = count(random, 41);
    let fine = random.below(2);
    SmartMac {
        fine,
        multihomed: random.below(2),
        label: field(random, if fine == 1 { 24 } else { 12 }),
        macs: several(random, length, |random| field(random, 48)),
    }
}

/// Contents that can be written.
pub fn contents(random: &mut Random) -> Contents {
    let mut number = |most| match random.below(3) {
        0 => 0,
        1 => 1,
        _ => random.length(0, most),
    };
    let (n, t, m) = (number(5), number(5), number(8));
    Contents {
        parameters: Some(Parameters {
            holding: field(random, 16),
            flags: field(random, 16),
        }),
        nicknames: several(random, n, nicknames),
        trees: several(random, t, trees),
        macs: several(random, m, smart_mac),
    }
}

/// One of the contents' numbers over its field, or a list over what a TLV holds; what it is.
pub fn spoil(random: &mut Random, contents: &mut Contents) -> &'static str {
    let wide = |random: &mut Random, bits: u32| 1 << random.between(bits.into(), 63);
    let parameters = contents.parameters.as_mut().expect("contents have them");
    match random.below(12) {
        0 => {
            parameters.holding |= wide(random, 16);
            "holding time"
        }
        1 => {
            parameters.flags |= wide(random, 16);
            "flags"
        }
        at @ 2..=4 => {
            let mut record = Nickname {
                priority: 0,
                root_priority: 0,
                nickname: 0,
            };
            match at {
                2 => record.priority = wide(random, 8),
                3 => record.root_priority = wide(random, 16),
                _ => record.nickname = wide(random, 16),
            }
            let mut list = nicknames(random);
            list.truncate(48);
            let place = random.length(0, list.len());
            list.insert(place, record);
            contents.nicknames.push(list);
            ["priority", "root priority", "nickname"][at as usize - 2]
        }
        5 => {
            contents.nicknames.push(vec![
                Nickname {
                    priority: 0,
                    root_priority: 0,
                    nickname: 0,
                };
                50
            ]);
            "50 records"
        }
        6 => {
            let mut tree = trees(random);
            tree.nicknames.truncate(122);
            let number = wide(random, 16);
            match random.below(2) {
                0 => tree.start = number,
                _ => tree.nicknames.push(number),
            }
            contents.trees.push(tree);
            "a number of a tree"
        }
        7 => {
            contents.trees.push(Trees {
                start: 1,
                nicknames: vec![1; 124],
            });
            "124 nicknames of trees"
        }
        8 => {
            let mut mac = smart_mac(random);
            match random.below(2) {
                0 => mac.fine = random.pick(&[2, 3, 1 << 32, u64::MAX]),
                _ => mac.multihomed = random.pick(&[2, 3, 1 << 32, u64::MAX]),
            }
            contents.macs.push(mac);
            "F or M"
        }
        9 => {
            let mut mac = smart_mac(random);
            mac.fine = 0;
            mac.label = 1 << random.between(12, 23);
            contents.macs.push(mac);
            "a label of more than 12 bits with F 0"
        }
        10 => {
            let mut mac = smart_mac(random);
            mac.label = wide(random, 24);
            contents.macs.push(mac);
            "a label of more than 24 bits"
        }
        _ => {
            let mut mac = smart_mac(random);
            mac.macs.truncate(40);
            match random.below(2) {
                0 => mac.macs.push(wide(random, 48)),
                _ => mac.macs = vec![1; 42],
            }
            contents.macs.push(mac);
            "a MAC, or 42 of them"
        }
    }
}

/// A piece: type, length, value.
fn piece(kind: u8, value: &[u8]) -> Vec<u8> {
    let mut bytes = vec![kind, value.len() as u8];
    bytes.extend(value);
    bytes
}

/// A sub-TLV or APPsub-TLV that is read or skipped, of the holder's registry, with any reserved bits; now and then one whose length its
/// type does not allow.
fn sub(random: &mut Random, holder: u8) -> Vec<u8> {
    let broken = random.one_in(120);
    let (kind, mut length) = match (holder, random.below(4)) {
        (CAPABILITY, 0 | 1) => (6, 5 * random.length(0, 4)),
        (CAPABILITY, 2) => (8, 2 + 2 * random.length(0, 4)),
        (CAPABILITY, _) => (random.pick(&[22, 23, 0, 7, 255]), random.length(0, 12)),
        (_, 0 | 1) => (23, 4 + 6 * random.length(0, 4)),
        (_, 2) => (random.pick(&[6, 8, 0, 21, 24, 255]), random.length(0, 12)),
        _ => (23, 4),
    };
    if broken {
        length += random.length(1, 4);
    }
    piece(kind, &random.bytes(length))
}

/// A TLV of any kind with what it may hold: other kinds, other applications, addresses.
fn tlv(random: &mut Random) -> Vec<u8> {
    match random.below(8) {
        0 => {
            let (kind, length) = (
                random.pick(&[0, 145, 241, 243, 250, 252]),
                random.length(0, 20),
            );
            piece(kind, &random.bytes(length))
        }
        1..=3 => {
            let mut value = random.bytes(5);
            for _ in 0..random.length(0, 4) {
                value.extend(sub(random, CAPABILITY));
            }
            value.truncate(255);
            piece(CAPABILITY, &value)
        }
        _ => {
            let application = random.pick(&[1u16, 1, 1, 1, 1, 0, 2, 0x0101]);
            let flags = random.pick(&[0x00, 0x00, 0x04, 0x08, 0x0C, 0xF3]);
            let mut value = vec![flags];
            value.extend(application.to_be_bytes());
            if flags & 0x04 != 0 {
                value.extend(random.bytes(4));
            }
            if flags & 0x08 != 0 {
                value.extend(random.bytes(16));
            }
            if random.one_in(40) {
                value.truncate(random.length(0, value.len()));
            } else {
                for _ in 0..random.length(0, 4) {
                    value.extend(sub(random, GENINFO));
                }
            }
            value.truncate(255);
            piece(GENINFO, &value)
        }
    }
}

/// A payload with Smart-Parameters somewhere, mostly once, and whether they are there twice. Now and then one that the writer makes, so
/// or with its TLVs in another order.
pub fn payload(random: &mut Random) -> (Vec<u8>, bool) {
    if random.one_in(4) {
        return (grouped(random), false);
    }
    let mut tlvs = Vec::new();
    for _ in 0..random.length(0, 6) {
        tlvs.push(tlv(random));
    }
    let times = match random.below(20) {
        0 => 0,
        1 => 2,
        _ => 1,
    };
    for _ in 0..times {
        let mut value = vec![random.pick(&[0x00, 0x00, 0x01]), 0x00, 0x01];
        for _ in 0..random.length(0, 2) {
            value.extend(sub(random, GENINFO));
        }
        let length = if random.one_in(40) {
            random.pick(&[0, 3, 5])
        } else {
            4
        };
        value.extend(piece(22, &random.bytes(length)));
        let place = random.length(0, tlvs.len());
        tlvs.insert(place, piece(GENINFO, &value));
    }
    (tlvs.concat(), times == 2)
}

/// Contents as the writer makes them; or their sub-TLVs in any order and grouping, each TLV as full as it gets or not.
fn grouped(random: &mut Random) -> Vec<u8> {
    let written = contents(random)
        .write()
        .expect("contents that can be written");
    if random.one_in(2) {
        return written;
    }
    let mut subs = subs_of(&written);
    for at in (1..subs.len()).rev() {
        subs.swap(at, random.length(0, at));
    }
    let mut tlvs: Vec<(u8, Vec<u8>)> = Vec::new();
    let apart = random.one_in(2);
    for (holder, sub) in subs {
        let split = apart && random.one_in(3);
        // the first TLV of this kind that has room, whatever stands between
        let room = tlvs
            .iter_mut()
            .find(|(kind, value)| *kind == holder && value.len() + sub.len() <= 255 && !split);
        match room {
            Some((_, value)) => value.extend(sub),
            None => tlvs.push((holder, [head(holder), &sub].concat())),
        }
    }
    tlvs.iter()
        .flat_map(|(kind, value)| piece(*kind, value))
        .collect()
}

/// The sub-TLVs of a written payload with the type of their TLV.
fn subs_of(written: &[u8]) -> Vec<(u8, Vec<u8>)> {
    let mut found = Vec::new();
    for (holder, value) in pieces_of(written) {
        for (kind, value) in pieces_of(&value[head(holder).len()..]) {
            found.push((holder, piece(kind, value)));
        }
    }
    found
}

/// The TLVs or sub-TLVs of bytes that hold whole ones: type and value.
fn pieces_of(mut bytes: &[u8]) -> Vec<(u8, &[u8])> {
    let mut found = Vec::new();
    while let [kind, length, rest @ ..] = bytes {
        let (value, next) = rest.split_at(usize::from(*length));
        found.push((*kind, value));
        bytes = next;
    }
    found
}

/// What the writer puts at the start of a TLV.
fn head(holder: u8) -> &'static [u8] {
    match holder {
        GENINFO => &[0, 0, 1],
        _ => &[0; 5],
    }
}

/// Whether a payload that can be read is "as the writer's": nothing in it is skipped, and order, grouping and all that the contents don't
/// hold are those of the writer.
pub fn is_plain(payload: &[u8]) -> bool {
    let tlvs = pieces_of(payload);
    let mut ranks = Vec::new();
    for (holder, value) in &tlvs {
        if ![CAPABILITY, GENINFO].contains(holder) || !value.starts_with(head(*holder)) {
            return false;
        }
        let subs = pieces_of(&value[head(*holder).len()..]);
        if subs.is_empty() {
            return false;
        }
        for (kind, value) in subs {
            ranks.push(match (*holder, kind) {
                (GENINFO, 22) => 0,
                (CAPABILITY, 6) => 1,
                (CAPABILITY, 8) => 2,
                (GENINFO, 23) if no_reserved_bits(value) => 3,
                _ => return false,
            });
        }
    }
    // the first sub-TLV of a TLV would not have gone into the one before
    let full = tlvs.windows(2).all(|two| {
        let [(before, value), (holder, next)] = two else {
            return true;
        };
        let first = &next[head(*holder).len()..];
        before != holder || value.len() + 2 + usize::from(first[1]) > 255
    });
    full && ranks.is_sorted()
}

/// F, M, 6 reserved bits, and with F 0 only the low 12 bits of the label.
fn no_reserved_bits(smart_mac: &[u8]) -> bool {
    let [first, high, middle, ..] = smart_mac else {
        return false;
    };
    first & 0x3F == 0 && (first & 0x80 != 0 || (*high == 0 && middle & 0xF0 == 0))
}

/// Makes a payload of the writer one that is read the same or nearly, but is not the writer's, mostly; what was done.
pub fn disturb(random: &mut Random, payload: &mut Vec<u8>) -> &'static str {
    let mut tlvs: Vec<(u8, Vec<u8>)> = pieces_of(payload)
        .iter()
        .map(|(kind, value)| (*kind, value.to_vec()))
        .collect();
    let at = random.length(0, tlvs.len() - 1);
    let other = (at + 1) % tlvs.len();
    let front = head(tlvs[at].0).len();
    let done = match random.below(7) {
        0 => {
            // not the application, and no address
            let place = random.length(0, front - 1);
            match tlvs[at].0 {
                GENINFO => tlvs[at].1[0] = random.pick(&[0x01, 0x02, 0x10, 0x80]),
                _ => tlvs[at].1[place] = random.byte(),
            }
            "a flag of a TLV"
        }
        1 => {
            if let Some((_, value)) = tlvs.iter_mut().rev().find(|(kind, _)| *kind == GENINFO) {
                // the first sub-TLV of the last one
                value[5] |= random.pick(&[0x01, 0x20, 0x3F]);
            }
            "a reserved bit"
        }
        2 => {
            let kind = random.pick(&[CAPABILITY, GENINFO, 145]);
            tlvs.insert(at, (kind, head(kind).to_vec()));
            "a TLV more"
        }
        3 => {
            if tlvs[at].1.len() <= 250 {
                tlvs[at].1.extend([random.pick(&[0, 7, 24]), 0]);
            }
            "a sub-TLV more"
        }
        4 => {
            tlvs.swap(at, other);
            "two TLVs in the other order"
        }
        5 => {
            let (one, two) = (tlvs[at].clone(), tlvs[other].clone());
            let more = &two.1[head(two.0).len()..];
            if at != other && one.0 == two.0 && one.1.len() + more.len() <= 255 {
                tlvs[at].1.extend(more);
                tlvs.remove(other);
            }
            "two TLVs made one"
        }
        _ => {
            let value = tlvs[at].1.clone();
            let (first, rest) = value[front..].split_at(2 + usize::from(value[front + 1]));
            if !rest.is_empty() {
                let kind = tlvs[at].0;
                tlvs[at].1 = [head(kind), first].concat();
                tlvs.insert(at + 1, (kind, [head(kind), rest].concat()));
            }
            "a TLV made two"
        }
    };
    *payload = tlvs
        .iter()
        .flat_map(|(kind, value)| piece(*kind, value))
        .collect();
    done
}
