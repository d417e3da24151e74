//! The calls that the program `replay` makes, and what the second implementation says they give.
//! docs/REPLAY.md describes the form.

use std::collections::BTreeMap;

use crate::captures;
use crate::generate::{self, Pool};
use crate::hellos;
use crate::maps;
use crate::random::Random;
use crate::reference::{self, write, Encapsulation, Entry, Label, Settings, OLD_RECORD, RECORD};
use crate::run::{self, Answers};
use crate::watched;

/// What the program's input and table hold at most, and its output or working area.
pub const ROOM: usize = 1024;
pub const AREA: usize = 9216;
/// How many vectors of one answer are kept, of those with an area over 1,024 bytes, and how many vectors there are at least.
const OF_EACH: usize = 16;
const LONG_OF_EACH: usize = 3;
const AT_LEAST: usize = 300;

/// The number of the line that makes the table.
pub const TABLE: u8 = 0;

/// A call with its numbers and bytes.
enum Call {
    Receive {
        settings: Settings,
        room: usize,
        frame: Vec<u8>,
    },
    Flush {
        ingress: u32,
        payload: Vec<u8>,
    },
    Age {
        seconds: u16,
    },
    Lookup {
        kind: u32,
        label: u32,
        mac: u64,
    },
    Spoilt,
    FreeSlot,
    Compact {
        settings: Settings,
        room: usize,
        frame: Vec<u8>,
    },
    Expand {
        settings: Settings,
        source: u64,
        tagged: u32,
        tag: u32,
        room: usize,
        frame: Vec<u8>,
    },
    Send {
        settings: Settings,
        room: usize,
        frame: Vec<u8>,
    },
    Widen {
        room: usize,
        old: Vec<u8>,
    },
    Portion {
        ingress: u32,
        payload: Vec<u8>,
        slot: u64,
        k: u64,
    },
    VlanOnly {
        ingress: u32,
        payload: Vec<u8>,
    },
    Why {
        ingress: u32,
        slot: u64,
        payload: Vec<u8>,
    },
    Report {
        room: usize,
    },
    HelloRead {
        room: usize,
        payload: Vec<u8>,
    },
    HelloWrite {
        room: usize,
        contents: Vec<u8>,
    },
    Write {
        nicknames: Vec<u8>,
        vlans: Vec<u8>,
        fine: Vec<u8>,
        macs: Vec<u8>,
        room: usize,
    },
    ReceivePort {
        settings: Settings,
        map: Vec<u8>,
        room: usize,
        frame: Vec<u8>,
    },
    Ingress {
        settings: Settings,
        map: Vec<u8>,
        given: Encapsulation,
        room: usize,
        frame: Vec<u8>,
    },
}

/// The numbers of the calls of document 02 (docs/REPLAY.md).
pub const RECEIVE_PORT: u8 = 0x09;
pub const INGRESS: u8 = 0x0A;
pub const WIDEN: u8 = 0x12;
pub const WRITE: u8 = 0x13;
pub const FREE_SLOT: u8 = 0x24;
const PORTION: u8 = 0x25;
const VLAN_ONLY: u8 = 0x27;
const WHY: u8 = 0x28;
const REPORT: u8 = 0x2E;
const HELLO_READ: u8 = 0x2D;
const HELLO_WRITE: u8 = 0x3D;

/// The calls' numbers, and the answers that each must give in some vector.
pub const ANSWERS: &[(u8, Answers)] = &[
    (1, run::RECEIVE),
    (2, run::FLUSH),
    (3, run::AGE),
    (4, run::LOOKUP),
    (5, run::SPOILT),
    (6, run::COMPACT),
    (7, run::EXPAND),
    (8, run::SEND),
    (FREE_SLOT, run::FREE_SLOT),
    (WIDEN, run::WIDEN),
    (PORTION, run::PORTION),
    (VLAN_ONLY, run::FLUSH),
    (WRITE, run::WRITE),
    (RECEIVE_PORT, run::RECEIVE_PORT),
    (INGRESS, run::INGRESS),
    (WHY, run::WHY),
    (REPORT, run::REPORT),
    (HELLO_READ, run::HELLO),
    (HELLO_WRITE, run::HELLO),
];

pub fn settings_bytes(settings: &Settings) -> Vec<u8> {
    let mut bytes = Vec::new();
    bytes.extend(settings.port.to_be_bytes());
    bytes.extend(settings.inner.to_be_bytes());
    bytes.extend(settings.nickname.to_be_bytes());
    bytes.extend(settings.compact.to_be_bytes());
    bytes.extend(settings.confidence.to_be_bytes());
    bytes.extend(settings.seconds.to_be_bytes());
    bytes
}

pub fn encapsulation_bytes(given: &Encapsulation) -> Vec<u8> {
    let mut bytes = Vec::new();
    bytes.extend(given.outer_destination.to_be_bytes());
    bytes.extend(given.outer_source.to_be_bytes());
    for number in [given.m, given.hop_count, given.egress, given.ingress] {
        bytes.extend(number.to_be_bytes());
    }
    bytes
}

fn length(room: usize) -> [u8; 2] {
    (room as u16).to_be_bytes()
}

/// Settings, a frame and room for about as much.
fn conversion(random: &mut Random, pool: &Pool) -> (Settings, Vec<u8>, usize) {
    let settings = generate::settings(random, pool);
    let frame = generate::frame(random, pool, &settings).bytes();
    let room = generate::area_length(random, frame.len());
    (settings, generate::damage(random, frame), room)
}

impl Call {
    fn random(random: &mut Random, pool: &Pool, table: &[u8]) -> Call {
        match random.below(16) {
            0..=1 => Call::Flush {
                ingress: generate::ingress(random, pool),
                payload: generate::payload(random, pool),
            },
            2 => Call::Age {
                seconds: generate::seconds(random, table),
            },
            3 => {
                let (kind, label, mac) = generate::key(random, pool, table);
                Call::Lookup { kind, label, mac }
            }
            4 if random.one_in(2) => Call::FreeSlot,
            4 => Call::Spoilt,
            5..=6 => {
                let (settings, frame, room) = conversion(random, pool);
                Call::Compact {
                    settings,
                    room,
                    frame,
                }
            }
            7..=8 => {
                let (settings, frame, room) = conversion(random, pool);
                let (source, tagged, tag) = generate::outer(random, pool);
                Call::Expand {
                    settings,
                    source,
                    tagged,
                    tag,
                    room,
                    frame,
                }
            }
            9..=10 => {
                let (settings, frame, room) = conversion(random, pool);
                let room = generate::working_length(random, room);
                Call::Send {
                    settings,
                    room,
                    frame,
                }
            }
            _ => {
                let settings = generate::settings(random, pool);
                let frame = generate::frame(random, pool, &settings);
                let room = generate::area_length(random, 12 + frame.content.len());
                Call::Receive {
                    settings,
                    room,
                    frame: generate::damage(random, frame.bytes()),
                }
            }
        }
    }

    /// Reading with a map, or ingress.
    fn with_map(random: &mut Random, pool: &Pool) -> Call {
        let map = maps::small_map(random, pool);
        if random.one_in(2) {
            let settings = maps::settings(random, pool);
            let frame = generate::frame(random, pool, &settings);
            let room = generate::area_length(random, 16 + frame.content.len());
            let frame = generate::damage(random, frame.bytes());
            Call::ReceivePort {
                settings,
                map,
                room,
                frame,
            }
        } else {
            let settings = generate::settings(random, pool);
            let given = maps::encapsulation(random, pool, &settings);
            let frame = maps::native(random, pool, &map).bytes();
            let room = generate::area_length(random, frame.len() + 24);
            let frame = generate::damage(random, frame);
            Call::Ingress {
                settings,
                map,
                given,
                room,
                frame,
            }
        }
    }

    fn number(&self) -> u8 {
        match self {
            Call::Receive { .. } => 1,
            Call::Flush { .. } => 2,
            Call::Age { .. } => 3,
            Call::Lookup { .. } => 4,
            Call::Spoilt => 5,
            Call::FreeSlot => FREE_SLOT,
            Call::Compact { .. } => 6,
            Call::Expand { .. } => 7,
            Call::Send { .. } => 8,
            Call::Widen { .. } => WIDEN,
            Call::Portion { .. } => PORTION,
            Call::VlanOnly { .. } => VLAN_ONLY,
            Call::Why { .. } => WHY,
            Call::Report { .. } => REPORT,
            Call::HelloRead { .. } => HELLO_READ,
            Call::HelloWrite { .. } => HELLO_WRITE,
            Call::Write { .. } => WRITE,
            Call::ReceivePort { .. } => RECEIVE_PORT,
            Call::Ingress { .. } => INGRESS,
        }
    }

    /// How much of the area it is lent.
    fn room(&self) -> usize {
        match self {
            Call::Receive { room, .. }
            | Call::Compact { room, .. }
            | Call::Expand { room, .. }
            | Call::Send { room, .. }
            | Call::Widen { room, .. }
            | Call::Write { room, .. }
            | Call::Report { room }
            | Call::HelloRead { room, .. }
            | Call::HelloWrite { room, .. }
            | Call::ReceivePort { room, .. }
            | Call::Ingress { room, .. } => *room,
            Call::Flush { .. }
            | Call::Age { .. }
            | Call::Lookup { .. }
            | Call::Spoilt
            | Call::FreeSlot
            | Call::Portion { .. }
            | Call::Why { .. }
            | Call::VlanOnly { .. } => 0,
        }
    }

    fn body(&self) -> Vec<u8> {
        match self {
            Call::Receive {
                settings,
                room,
                frame,
            }
            | Call::Compact {
                settings,
                room,
                frame,
            }
            | Call::Send {
                settings,
                room,
                frame,
            } => [&settings_bytes(settings)[..], &length(*room), frame].concat(),
            Call::Expand {
                settings,
                source,
                tagged,
                tag,
                room,
                frame,
            } => [
                &settings_bytes(settings)[..],
                &source.to_be_bytes(),
                &tagged.to_be_bytes(),
                &tag.to_be_bytes(),
                &length(*room),
                frame,
            ]
            .concat(),
            Call::ReceivePort {
                settings,
                map,
                room,
                frame,
            } => [
                &settings_bytes(settings)[..],
                &settings.multihomed.to_be_bytes(),
                &settings.smart.to_be_bytes(),
                &length(*room),
                &length(map.len()),
                map,
                frame,
            ]
            .concat(),
            Call::Ingress {
                settings,
                map,
                given,
                room,
                frame,
            } => [
                &settings_bytes(settings)[..],
                &encapsulation_bytes(given),
                &length(*room),
                &length(map.len()),
                map,
                frame,
            ]
            .concat(),
            Call::Flush { ingress, payload } | Call::VlanOnly { ingress, payload } => {
                [&ingress.to_be_bytes()[..], payload].concat()
            }
            Call::Age { seconds } => seconds.to_be_bytes().to_vec(),
            Call::Lookup { kind, label, mac } => [
                &kind.to_be_bytes()[..],
                &label.to_be_bytes(),
                &mac.to_be_bytes(),
            ]
            .concat(),
            Call::Spoilt | Call::FreeSlot => Vec::new(),
            Call::Widen { room, old } => [&length(*room)[..], old].concat(),
            Call::Why {
                ingress,
                slot,
                payload,
            } => [&ingress.to_be_bytes()[..], &slot.to_be_bytes(), payload].concat(),
            Call::Report { room } => length(*room).to_vec(),
            Call::HelloRead { room, payload } => [&length(*room)[..], payload].concat(),
            Call::HelloWrite { room, contents } => [&length(*room)[..], contents].concat(),
            Call::Portion {
                ingress,
                payload,
                slot,
                k,
            } => [
                &ingress.to_be_bytes()[..],
                &slot.to_be_bytes(),
                &k.to_be_bytes(),
                payload,
            ]
            .concat(),
            Call::Write {
                nicknames,
                vlans,
                fine,
                macs,
                room,
            } => [
                &length(nicknames.len())[..],
                &length(vlans.len()),
                &length(fine.len()),
                &length(*room),
                nicknames,
                vlans,
                fine,
                macs,
            ]
            .concat(),
        }
    }

    /// The word that the second implementation answers.
    fn make(&self, table: &mut [u8], area: &mut [u8]) -> u64 {
        match self {
            Call::Receive {
                settings,
                room,
                frame,
            } => reference::receive(settings, frame, table, &mut area[..*room]),
            Call::ReceivePort {
                settings,
                map,
                room,
                frame,
            } => reference::receive_port(settings, map, frame, table, &mut area[..*room]),
            Call::Ingress {
                settings,
                map,
                given,
                room,
                frame,
            } => reference::ingress(settings, map, given, frame, &mut area[..*room]),
            Call::Flush { ingress, payload } => reference::flush(*ingress, payload, table),
            Call::Age { seconds } => reference::age(*seconds, table),
            Call::Lookup { kind, label, mac } => reference::lookup(*kind, *label, *mac, table),
            Call::Spoilt => reference::spoilt(table),
            Call::FreeSlot => reference::free_slot(table),
            Call::Portion {
                ingress,
                payload,
                slot,
                k,
            } => reference::flush_portion(*ingress, payload, *slot, *k, table),
            Call::VlanOnly { ingress, payload } => {
                reference::flush_vlan_only(*ingress, payload, table)
            }
            Call::Compact {
                settings,
                room,
                frame,
            } => reference::compact(settings, frame, &mut area[..*room]),
            Call::Expand {
                settings,
                source,
                tagged,
                tag,
                room,
                frame,
            } => reference::expand(settings, *source, *tagged, *tag, frame, &mut area[..*room]),
            Call::Send {
                settings,
                room,
                frame,
            } => reference::send(settings, frame, &mut area[..*room]),
            Call::Widen { room, old } => reference::widen(old, &mut area[..*room]),
            Call::Why {
                ingress,
                slot,
                payload,
            } => reference::why(*ingress, payload, *slot, table),
            Call::Report { room } => reference::report(table, &mut area[..*room]),
            Call::HelloRead { room, payload } => reference::hello_read(payload, &mut area[..*room]),
            Call::HelloWrite { room, contents } => {
                reference::hello_write(contents, &mut area[..*room])
            }
            Call::Write {
                nicknames,
                vlans,
                fine,
                macs,
                room,
            } => reference::write_flush(nicknames, vlans, fine, macs, &mut area[..*room]),
        }
    }

    /// What is sent after an answer of sending: document 01 lets the caller choose a part of the
    /// working area or the frame itself; nothing after a refusal.
    fn chosen(&self, word: u64, area: &[u8]) -> Option<Vec<u8>> {
        match (self, word as u8) {
            (Call::Send { .. }, 64) => Some(area[..(word >> 8) as usize].to_vec()),
            (Call::Send { frame, .. }, 65) => Some(frame.clone()),
            (Call::Send { .. }, _) => Some(Vec::new()),
            _ => None,
        }
    }
}

/// What the program holds, and what it was given and wrote up to now.
struct Replay {
    table: Vec<u8>,
    area: Vec<u8>,
    input: String,
    output: String,
    vectors: usize,
    answers: BTreeMap<(u8, u8), usize>,
}

pub fn hex(bytes: &[u8]) -> String {
    bytes.iter().map(|byte| format!("{byte:02x}")).collect()
}

pub fn input_line(number: u8, body: &[u8]) -> String {
    format!("{number:02x} {:04x} {}\n", body.len(), hex(body))
}

impl Replay {
    /// Makes a call on a table, and keeps it unless its answer was kept often enough.
    fn offer(&mut self, table: Vec<u8>, call: &Call) {
        let body = call.body();
        if body.len() > ROOM || call.room() > AREA {
            return;
        }
        let (mut after, mut area) = (table.clone(), self.area.clone());
        let word = call.make(&mut after, &mut area);
        let kept = self.answers.entry((call.number(), word as u8)).or_default();
        let most = if call.room() > ROOM {
            LONG_OF_EACH
        } else {
            OF_EACH
        };
        if *kept >= most {
            return;
        }
        *kept += 1;
        self.vectors += 1;
        if table != self.table {
            self.input += &input_line(TABLE, &table);
        }
        self.input += &input_line(call.number(), &body);
        let lent = &area[..call.room()];
        self.output += &format!("{word:016x} {} {}", hex(&after), hex(lent));
        if let Some(sent) = call.chosen(word, lent) {
            self.output += &format!(" {}", hex(&sent));
        }
        self.output += "\n";
        (self.table, self.area) = (after, area);
    }

    /// Whether there are vectors enough, and every answer of the calls but those whose turn comes later.
    fn is_whole(&self, later: &[u8]) -> bool {
        let kept = |number, answer| self.answers.contains_key(&(number, answer));
        self.vectors >= AT_LEAST
            && ANSWERS
                .iter()
                .filter(|(number, _)| !later.contains(number))
                .all(|(number, answers)| answers.iter().all(|(answer, _)| kept(*number, *answer)))
    }
}

/// A small table, now and then of a bad length.
fn small_table(random: &mut Random, pool: &Pool) -> Vec<u8> {
    let mut table = generate::good_length_table(random, pool);
    table.truncate(RECORD * random.length(1, 5));
    if random.one_in(6) {
        table.truncate(random.length(0, RECORD - 1));
    }
    table
}

/// Each address inside through compaction, sending and reading, and in front through reading with Compact on and off, compaction and
/// expansion.
fn control_calls(room: usize) -> Vec<Call> {
    let settings = captures::PORT;
    let off = Settings {
        compact: 0,
        ..settings
    };
    let receive = |settings, frame| Call::Receive {
        settings,
        room,
        frame,
    };
    let compact = |frame| Call::Compact {
        settings,
        room,
        frame,
    };
    let calls = |(inside, front): (Vec<u8>, Vec<u8>)| {
        [
            compact(inside.clone()),
            Call::Send {
                settings,
                room: reference::WORKING_AREA,
                frame: inside.clone(),
            },
            receive(settings, inside),
            receive(settings, front.clone()),
            receive(off, front.clone()),
            compact(front.clone()),
            Call::Expand {
                settings,
                source: 0x0200_0000_00B2,
                tagged: 0,
                tag: 0,
                room,
                frame: front,
            },
        ]
    };
    captures::control().into_iter().flat_map(calls).collect()
}

/// Older tables, with learned, configured, free and spoilt records: of lengths that are none, without room, with just enough, with more,
/// and of a length that fits both widths.
fn widen_calls() -> Vec<Call> {
    let entry = Entry {
        label: Label::Vlan(10),
        mac: 0x0200_0000_0001,
        nickname: 0x1234,
        confidence: 20,
        seconds: 300,
        multihomed: false,
    };
    let records = [
        write(true, &entry),
        [0; RECORD],
        write(false, &entry),
        [0xC3; RECORD],
    ];
    let old = |length: usize| -> Vec<u8> {
        let fields = records.iter().cycle();
        fields
            .flat_map(|record| record[..OLD_RECORD].to_vec())
            .take(length)
            .collect()
    };
    let both = OLD_RECORD * RECORD;
    [
        (0, 64),
        (OLD_RECORD - 1, 64),
        (RECORD, 64),
        (OLD_RECORD, RECORD - 1),
        (OLD_RECORD, 0),
        (OLD_RECORD, RECORD),
        (4 * OLD_RECORD, 4 * RECORD + 4),
        (both, both),
        (both, RECORD * RECORD),
    ]
    .map(|(length, room)| Call::Widen {
        room,
        old: old(length),
    })
    .into()
}

/// Portions (2026-05): one random flush from slot 0 to the end of a small table, and any portions, until each answer was kept as often
/// as may be.
fn offer_portions(replay: &mut Replay) {
    for case in 0..2000 {
        let random = &mut Random::for_case(2605, case);
        let pool = Pool::new(random);
        let table = small_table(random, &pool);
        let (slot, k) = generate::portion(random, table.len());
        let call = |slot, k, payload| Call::Portion {
            ingress: u32::from(pool.nicknames[0]),
            payload,
            slot,
            k,
        };
        let payload = generate::payload(random, &pool);
        replay.offer(table, &call(slot, k, payload.clone()));
        let slots = (replay.table.len() / RECORD) as u64;
        for next in 0..slots {
            replay.offer(replay.table.clone(), &call(next, 1, payload.clone()));
        }
    }
}

/// The VLAN-only model (2026-07): the message that only it carries out, and any.
fn offer_vlan_only(replay: &mut Replay) {
    for case in 0..2000 {
        let random = &mut Random::for_case(2607, case);
        let pool = Pool::new(random);
        let table = small_table(random, &pool);
        let payload = match case {
            0 => vec![0x00, 0x00, 0x06, 0x00, 0x07, 0x01, 0x00],
            _ => generate::payload(random, &pool),
        };
        let ingress = u32::from(pool.nicknames[0]);
        replay.offer(table, &Call::VlanOnly { ingress, payload });
    }
}

/// P1 of document 01, widened.
fn p1() -> Vec<u8> {
    let entry = Entry {
        label: Label::Vlan(10),
        mac: 0x0200_0000_0001,
        nickname: 0x1234,
        confidence: 20,
        seconds: 300,
        multihomed: false,
    };
    write(true, &entry).to_vec()
}

/// Why an address went (2026-08): the vectors of the request on P1, and any.
fn offer_why(replay: &mut Replay) {
    let p2 = [0x01, 0x12, 0x34, 0x01, 0x00, 0x0A, 0x00, 0x0C].to_vec();
    let p3 = [0x00, 0x01, 0x00, 0x0A, 0x00, 0x0A].to_vec();
    let tlvs = |last| [&[0, 0, 7, 6, 2, 0, 0, 0, 0, last][..], &[9, 0, 6, 0]].concat();
    for (ingress, payload) in [
        (0x0102, p2),
        (0x1235, p3),
        (0x1234, tlvs(2)),
        (0x1234, tlvs(1)),
    ] {
        let call = Call::Why {
            ingress,
            slot: 0,
            payload,
        };
        replay.offer(p1(), &call);
    }
    for case in 0..2000 {
        let random = &mut Random::for_case(2608, case);
        let pool = Pool::new(random);
        let table = small_table(random, &pool);
        let (slot, _) = generate::portion(random, table.len());
        let call = Call::Why {
            ingress: generate::ingress(random, &pool),
            slot,
            payload: generate::payload(random, &pool),
        };
        replay.offer(table, &call);
    }
}

/// The morning report (2026-14): P1, a table of a bad length, areas with and without room, and any tables.
fn offer_report(replay: &mut Replay) {
    for (table, room) in [
        (p1(), 25),
        (p1(), 24),
        (p1(), 40),
        (p1()[1..].to_vec(), 10),
        (p1()[1..].to_vec(), 9),
        (Vec::new(), 64),
    ] {
        replay.offer(table, &Call::Report { room });
    }
    for case in 0..200 {
        let random = &mut Random::for_case(2614, case);
        let mut table = generate::crowd(random);
        table.truncate(RECORD * random.length(1, 30));
        let room = generate::area_length(random, reference::reported(&table).len());
        replay.offer(table, &Call::Report { room });
    }
}

/// Smart-Hellos to read (2026-13): that of the request, with and without room, cut and without its parameters, and any payloads.
fn offer_hello(replay: &mut Replay) {
    const HELLO: [u8; 50] = [
        0xFB, 9, 0, 0, 1, 22, 4, 0, 30, 0, 0, 0xF2, 20, 0, 0, 0, 0, 0, 6, 5, 0x40, 0x80, 0, 0x12,
        0x34, 8, 6, 0, 1, 0x12, 0x34, 0x12, 0x35, 0xFB, 15, 0, 0, 1, 23, 10, 0x40, 0, 0, 10, 2, 0,
        0, 0, 0, 1,
    ];
    for (room, payload) in [
        (152, &HELLO[..]),
        (151, &HELLO),
        (160, &HELLO),
        (160, &HELLO[..49]),
        (160, &HELLO[11..]),
        (0, &[]),
    ] {
        let payload = payload.to_vec();
        replay.offer(p1(), &Call::HelloRead { room, payload });
    }
    for case in 0..200 {
        let random = &mut Random::for_case(2613, case);
        let (payload, _) = hellos::payload(random);
        let found = reference::Contents::read(&payload);
        let room = generate::area_length(random, found.map_or(0, |found| found.area().len()));
        replay.offer(p1(), &Call::HelloRead { room, payload });
    }
}

/// Writing Smart-Hellos (2026-13): the contents of the request, in areas with and without room, cut, too long and without parameters, and
/// any.
fn offer_hello_write(replay: &mut Replay) {
    let good = hellos::area(&hellos::NUMBERS);
    let without = hellos::area(&[&[0], &hellos::NUMBERS[3..]].concat());
    let mut wide = hellos::NUMBERS;
    wide[16] = 0x1000;
    for (room, contents) in [
        (50, &good[..]),
        (49, &good),
        (60, &good),
        (60, &good[..151]),
        (60, &good[..144]),
        (60, &hellos::area(&wide)),
        (60, &without),
        (0, &without),
        (60, &hellos::area(&[&hellos::NUMBERS[..], &[0]].concat())),
        (0, &[]),
    ] {
        let contents = contents.to_vec();
        replay.offer(p1(), &Call::HelloWrite { room, contents });
    }
    for case in 0..400 {
        let random = &mut Random::for_case(2614, case);
        let mut found = hellos::contents(random);
        match random.below(6) {
            0 => drop(hellos::spoil(random, &mut found)),
            1 => found.parameters = None,
            _ => {}
        }
        let room = generate::area_length(random, found.write().map_or(0, |written| written.len()));
        let contents = found.area();
        replay.offer(p1(), &Call::HelloWrite { room, contents });
    }
}

/// Flushes to write (2026-03): the two of the request; both sides of a full TLV of each kind; one short area; what is refused.
fn write_calls() -> Vec<Call> {
    let many = |count: u64, width: usize| -> Vec<u8> {
        let numbers = (1..=count).flat_map(|at| [at, at + 1]);
        let bytes = numbers.flat_map(|number| number.to_be_bytes()[8 - width..].to_vec());
        bytes.collect()
    };
    let write = |nicknames: &[u8], v: &[u8], f: &[u8], m: &[u8], room: usize| Call::Write {
        nicknames: nicknames.to_vec(),
        vlans: v.to_vec(),
        fine: f.to_vec(),
        macs: m.to_vec(),
        room,
    };
    let vlans = [0, 10, 0, 12];
    let mac = [0, 0, 2, 0, 0, 0, 0, 1, 0, 0, 2, 0, 0, 0, 0, 1];
    vec![
        write(&[0x12, 0x34], &vlans, &[], &[], 8),
        write(&[], &vlans, &[], &mac, 22),
        write(&[], &vlans, &[], &mac, 21),
        write(&[], &many(63, 2), &many(1, 4), &[], 300),
        write(&[], &many(64, 2), &many(1, 4), &[], 300),
        write(&[], &[], &many(42, 4), &[], 300),
        write(&[], &[], &many(43, 4), &[], 300),
        write(&[], &vlans, &[], &many(21, 8), 300),
        write(&[], &vlans, &[], &many(22, 8), 300),
        write(&[], &[], &[], &mac, 22),
        write(&[], &[0, 12, 0, 10], &[], &[], 22),
        write(&[], &[0, 0, 0, 10], &[], &[], 22),
        write(&[], &[0, 10, 0x0F, 0xFF], &[], &[], 22),
        write(&[], &[], &[0, 0, 0, 0, 1, 0, 0, 0], &[], 22),
        write(&[], &vlans[..3], &[], &[], 22),
    ]
}

/// A station on two switches (2026-12), on three free slots: its first home and its second, each in Compact Format again, at a port whose
/// bit is the other one, and then without a mark.
fn homes_calls(room: usize) -> Vec<Call> {
    let frame = |nickname, reserved, compact| generate::Frame {
        compact,
        outer_destination: captures::PORT.port,
        outer_source: 0x0200_0000_00B2,
        outer_tag: None,
        trill: 0x22F3,
        version: 0,
        reserved,
        multicast: false,
        option_length: 0,
        hop_count: 5,
        egress: captures::PORT.nickname as u16,
        ingress: nickname,
        options: Vec::new(),
        inner_destination: 0x0200_0000_000D,
        inner_source: 0x0200_0000_0001,
        label: vec![0x81, 0x00, 0x00, 0x0A],
        content: vec![0x08, 0x00, 0x45, 0x00],
    };
    let read = |multihomed, nickname, reserved, compact| Call::ReceivePort {
        settings: Settings {
            multihomed,
            ..captures::PORT
        },
        map: Vec::new(),
        room,
        frame: frame(nickname, reserved, compact).bytes(),
    };
    vec![
        read(1, 0x1234, 0b10, false),
        read(1, 0x5678, 0b10, false),
        read(1, 0x1234, 0b11, true),
        read(2, 0x5678, 0b01, true),
        read(2, 0x9ABC, 0b01, false),
        read(3, 0x1234, 0b11, false),
        read(2, 0x5678, 0b10, false),
    ]
}

/// The native frame of 2026-01 through ingress and mapped reading, with DEI, cut and untagged; then at ports with other maps.
fn map_calls(room: usize) -> Vec<Call> {
    let settings = captures::PORT;
    let given = Encapsulation {
        outer_destination: settings.port,
        outer_source: 0x0200_0000_00B2,
        m: 0,
        hop_count: 5,
        egress: settings.nickname,
        ingress: 0x1234,
    };
    let map = maps::bytes(&[(10, 0xAB_CDEF)]);
    let native = |tag| maps::Native {
        destination: 0x0200_0000_000D,
        source: 0x0200_0000_0001,
        tag,
        content: vec![0x08, 0x00, 0x45, 0x00],
    };
    let frame = native(Some((0x8100, 0x600A))).bytes();
    let ingress = |map: &[u8], frame: &[u8]| Call::Ingress {
        settings,
        map: map.to_vec(),
        given,
        room,
        frame: frame.to_vec(),
    };
    let mut general = vec![0; frame.len() + 24];
    reference::ingress(&settings, &map, &given, &frame, &mut general);
    let mut compact = vec![0; general.len() - 12];
    reference::compact(&settings, &general, &mut compact);
    let read = |map: Vec<u8>, frame: &[u8]| Call::ReceivePort {
        settings,
        map,
        room,
        frame: frame.to_vec(),
    };
    vec![
        ingress(&map, &frame),
        read(map.clone(), &general),
        read(map.clone(), &compact),
        ingress(&map, &native(Some((0x8100, 0x700A))).bytes()),
        ingress(&map, &frame[..17]),
        ingress(&map, &frame[..15]),
        ingress(&map, &native(None).bytes()),
        // No map, another label, a VLAN twice, a label twice, half a pair.
        read(Vec::new(), &general),
        read(maps::bytes(&[(10, 0xAB_CDEE)]), &general),
        read(maps::bytes(&[(10, 0xAB_CDEF), (10, 1)]), &general),
        ingress(&maps::bytes(&[(10, 7), (11, 7)]), &frame),
        ingress(&map[..3], &frame),
        ingress(&[], &frame),
    ]
}

/// The input and the output of the program; always the same ones.
pub fn files() -> (String, String) {
    let mut replay = Replay {
        table: Vec::new(),
        area: vec![0; AREA],
        input: String::new(),
        output: String::new(),
        vectors: 0,
        answers: BTreeMap::new(),
    };
    // The customer's padded flush and its frames (2026-02), on a table of three free slots.
    for (place, frame) in captures::padded().into_iter().enumerate() {
        let table = if place == 0 {
            vec![0; 3 * RECORD]
        } else {
            replay.table.clone()
        };
        replay.offer(
            table,
            &Call::Receive {
                settings: captures::PORT,
                room: 64,
                frame,
            },
        );
    }
    // Control addresses and those beside them (2026-09), on the table that is there.
    for call in control_calls(128) {
        replay.offer(replay.table.clone(), &call);
    }
    // Older tables widened (2026-12); the table that is there stays.
    for call in widen_calls() {
        replay.offer(replay.table.clone(), &call);
    }
    offer_portions(&mut replay);
    offer_vlan_only(&mut replay);
    let mut case = 0;
    while !replay.is_whole(&[
        WRITE,
        RECEIVE_PORT,
        INGRESS,
        WHY,
        REPORT,
        HELLO_READ,
        HELLO_WRITE,
    ]) {
        assert!(
            case < 1_000_000,
            "an answer is missing: {:?}",
            replay.answers
        );
        let random = &mut Random::for_case(8383, case);
        let pool = Pool::new(random);
        let table = if random.one_in(2) {
            small_table(random, &pool)
        } else {
            replay.table.clone()
        };
        let call = Call::random(random, &pool, &table);
        replay.offer(table, &call);
        case += 1;
    }
    // The watch (2026-06), by value.
    for (number, body, word, work, [left, reading]) in watched::vectors(&mut replay.area) {
        replay.input += &input_line(number, &body);
        let (table, work) = (hex(&replay.table), hex(&work));
        replay.output += &format!("{word:016x} {table} {work} {left:08x}{reading:08x}\n");
    }
    for call in write_calls() {
        replay.offer(replay.table.clone(), &call);
    }
    // A port's map (2026-01), on two free slots; then any.
    for (place, call) in map_calls(64).iter().enumerate() {
        let table = match place {
            0 => vec![0; 2 * RECORD],
            _ => replay.table.clone(),
        };
        replay.offer(table, call);
    }
    for (place, call) in homes_calls(32).iter().enumerate() {
        let table = match place {
            0 => vec![0; 3 * RECORD],
            _ => replay.table.clone(),
        };
        replay.offer(table, call);
    }
    let mut case = 0;
    while !replay.is_whole(&[WHY, REPORT, HELLO_READ, HELLO_WRITE]) {
        assert!(
            case < 1_000_000,
            "an answer is missing: {:?}",
            replay.answers
        );
        let random = &mut Random::for_case(7172, case);
        let pool = Pool::new(random);
        let call = Call::with_map(random, &pool);
        replay.offer(small_table(random, &pool), &call);
        case += 1;
    }
    offer_why(&mut replay);
    offer_report(&mut replay);
    offer_hello(&mut replay);
    offer_hello_write(&mut replay);
    assert!(
        replay.is_whole(&[]),
        "an answer is missing: {:?}",
        replay.answers
    );
    (replay.input, replay.output)
}
