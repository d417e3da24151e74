//! The captures of the port driver (`driver/data/*.pcap`), frame by frame.

use crate::generate::Frame;
use crate::reference::Settings;

/// The port of the worked example; `make run` and the tests of the driver pass the same settings.
pub const PORT: Settings = Settings {
    port: 0x0200_0000_00A1,
    inner: 0x0200_0000_00AA,
    nickname: 0x0102,
    compact: 1,
    confidence: 32,
    seconds: 0,
    multihomed: 0,
    smart: 0,
};
/// The port at the other end of the lab's link.
const RIGHT: Settings = Settings {
    port: 0x0200_0000_00B2,
    inner: 0x0200_0000_00BB,
    nickname: 0x1234,
    ..PORT
};
const ARCHIVE: u64 = 0x0200_0000_000D;
const ALL_RBRIDGES: u64 = 0x0180_C200_0040;
const ALL_EGRESS: u64 = 0x0180_C200_0042;
const BROADCAST: u64 = 0xFFFF_FFFF_FFFF;
const TREE: u16 = 0x0B0B;

/// How the numbers of a capture are written.
#[derive(Clone, Copy, Debug, PartialEq, Eq)]
pub struct Form {
    pub big_endian: bool,
    pub nanoseconds: bool,
}

/// As tcpdump writes it on most machines.
pub const USUAL: Form = Form {
    big_endian: false,
    nanoseconds: false,
};

impl Form {
    fn number(self, value: u32) -> [u8; 4] {
        if self.big_endian {
            value.to_be_bytes()
        } else {
            value.to_le_bytes()
        }
    }

    fn short(self, value: u16) -> [u8; 2] {
        if self.big_endian {
            value.to_be_bytes()
        } else {
            value.to_le_bytes()
        }
    }

    pub fn header(self) -> Vec<u8> {
        let magic = if self.nanoseconds {
            0xA1B2_3C4D
        } else {
            0xA1B2_C3D4
        };
        [
            &self.number(magic)[..],
            &self.short(2),
            &self.short(4),
            &self.number(0),
            &self.number(0),
            &self.number(262_144),
            &self.number(1),
        ]
        .concat()
    }

    /// A record of a frame, with its time.
    pub fn record(self, (seconds, fraction): (u32, u32), frame: &[u8]) -> Vec<u8> {
        let length = self.number(frame.len() as u32);
        let time = [self.number(seconds), self.number(fraction)].concat();
        [&time[..], &length, &length, frame].concat()
    }
}

/// The time of a frame by its place in a capture; the second number is below a million, and so good in both precisions.
pub fn time(place: usize) -> (u32, u32) {
    (1_763_280_000 + place as u32, 123_456 + 1_000 * place as u32)
}

pub fn capture(form: Form, frames: &[Vec<u8>]) -> Vec<u8> {
    let records = frames
        .iter()
        .enumerate()
        .flat_map(|(place, frame)| form.record(time(place), frame));
    form.header().into_iter().chain(records).collect()
}

fn station(number: u64) -> u64 {
    0x0200_0000_0000 + number
}

fn vlan(number: u16) -> Vec<u8> {
    [0x8100u16.to_be_bytes(), number.to_be_bytes()].concat()
}

fn fgl(number: u32) -> Vec<u8> {
    let part = |bits: u32| [0x893Bu16.to_be_bytes(), (bits as u16 & 0xFFF).to_be_bytes()].concat();
    [part(number >> 12), part(number)].concat()
}

/// The content of an IPv4 packet's frame, enough for a native frame of 60 bytes.
fn data() -> Vec<u8> {
    let mut content = vec![0x08, 0x00, 0x45];
    content.resize(48, 0);
    content
}

fn channel(protocol: u16, payload: &[u8]) -> Vec<u8> {
    let front = [0x8946u16.to_be_bytes(), protocol.to_be_bytes(), [0, 0]].concat();
    [&front, payload].concat()
}

fn flush(payload: &[u8]) -> Vec<u8> {
    channel(0x009, payload)
}

/// A General frame for a port, from a station of VLAN 10 to the archive.
fn general(to: &Settings, ingress: u16, source: u64) -> Frame {
    Frame {
        compact: false,
        outer_destination: to.port,
        outer_source: if to == &PORT { RIGHT.port } else { PORT.port },
        outer_tag: None,
        trill: 0x22F3,
        version: 0,
        reserved: 0,
        multicast: false,
        option_length: 0,
        hop_count: 5,
        egress: to.nickname as u16,
        ingress,
        options: Vec::new(),
        inner_destination: ARCHIVE,
        inner_source: source,
        label: vlan(10),
        content: data(),
    }
}

/// One to all: the address :40 in front, M 1, a tree's nickname as egress.
fn to_all(frame: Frame) -> Frame {
    Frame {
        outer_destination: ALL_RBRIDGES,
        multicast: true,
        egress: TREE,
        inner_destination: BROADCAST,
        ..frame
    }
}

/// One nickname, no VLAN blocks, then two TLVs: the VLANs 10 to 12, and the address of station 2.
const SCANNER_GONE: [u8; 18] = [
    0x01, 0x12, 0x34, 0x00, 0x01, 0x04, 0x00, 0x0A, 0x00, 0x0C, 0x07, 0x06, 0x02, 0x00, 0x00, 0x00,
    0x00, 0x02,
];
/// No nickname, so the sender's; one block of the VLAN 10.
const OWN_VLAN_10: [u8; 6] = [0x00, 0x01, 0x00, 0x0A, 0x00, 0x0A];

/// The worked example.
fn hall() -> Vec<Vec<u8>> {
    let from = |ingress, number| general(&PORT, ingress, station(number));
    let compact = |frame| Frame {
        compact: true,
        ..frame
    };
    let announce = |content| Frame {
        inner_destination: ALL_EGRESS,
        label: vlan(1),
        content,
        ..to_all(from(0x1234, 0xB2))
    };
    let ask = |ingress, content| Frame {
        inner_destination: PORT.inner,
        label: vlan(1),
        content,
        ..from(ingress, 0xB2)
    };
    let arp = [
        &BROADCAST.to_be_bytes()[2..],
        &station(9).to_be_bytes()[2..],
        &[0x08, 0x06],
        &[0; 46],
    ]
    .concat();
    vec![
        from(0x1234, 1).bytes(),
        // the same address under a fine-grained label with the same number: another record
        Frame {
            outer_tag: Some(100),
            label: fgl(10),
            ..from(0x1234, 1)
        }
        .bytes(),
        compact(Frame {
            label: vlan(12),
            ..from(0x1234, 2)
        })
        .bytes(),
        compact(Frame {
            label: fgl(70_000),
            ..from(0x1235, 3)
        })
        .bytes(),
        to_all(from(0x1235, 4)).bytes(),
        // station 1 has moved
        compact(from(0x1235, 1)).bytes(),
        // transit
        Frame {
            egress: 0x0999,
            ..from(0x1234, 6)
        }
        .bytes(),
        ask(0x1234, channel(0x001, &[0; 8])).bytes(),
        arp,
        // the user's fault: clearing TLV by TLV would clear slot 2 here
        announce(flush(&SCANNER_GONE[..15])).bytes(),
        announce(flush(&SCANNER_GONE)).bytes(),
        compact(ask(0x1235, flush(&OWN_VLAN_10))).bytes(),
        Frame {
            label: vlan(20),
            ..from(0x1234, 5)
        }
        .bytes(),
    ]
}

/// Every refusal that a frame can cause, in the order of the numbers.
fn refusals() -> Vec<Vec<u8>> {
    let good = || general(&PORT, 0x1234, station(7));
    let with = |change: fn(&mut Frame)| {
        let mut frame = good();
        change(&mut frame);
        frame.bytes()
    };
    let cut = |length| good().bytes()[..length].to_vec();
    let ask = |change: fn(&mut Frame)| {
        let mut frame = Frame {
            inner_destination: PORT.inner,
            ..good()
        };
        change(&mut frame);
        frame.bytes()
    };
    vec![
        // 3
        cut(13),
        with(|frame| frame.content.resize(9_217 - 36, 0)),
        // 4, of a General and of a Compact frame
        with(|frame| frame.trill = 0x0800),
        with(|frame| {
            frame.compact = true;
            frame.trill = 0x0800;
        }),
        // 5
        with(|frame| frame.outer_destination = 0x0180_C200_0041),
        // 6: in the header, an inner address, the label; content of one byte; a channel header
        cut(18),
        cut(25),
        cut(34),
        cut(37),
        ask(|frame| frame.content = vec![0x89, 0x46, 0x00, 0x09, 0x00]),
        // 7, 8
        with(|frame| frame.version = 1),
        with(|frame| frame.hop_count = 0),
        // 9: none, a reserved one, our own
        with(|frame| frame.egress = 0),
        with(|frame| frame.ingress = 0xFFC0),
        with(|frame| frame.ingress = PORT.nickname as u16),
        // 10: VLAN 0 and FFF, no label, half a fine-grained one; in Compact Format too
        with(|frame| frame.label = vlan(0)),
        with(|frame| frame.label = vlan(0xFFF)),
        with(|frame| frame.label = Vec::new()),
        with(|frame| frame.label = fgl(10)[..4].to_vec()),
        with(|frame| {
            frame.compact = true;
            frame.label = vlan(0);
        }),
        // 11
        with(|frame| frame.inner_source = 0x0300_0000_0007),
        // 12, both ways
        with(|frame| frame.multicast = true),
        with(|frame| frame.outer_destination = ALL_RBRIDGES),
        // 13
        with(|frame| frame.inner_destination = 0x0180_C200_0041),
        // 14: version, ERR, another destination
        ask(|frame| frame.content = channel(0x1009, &OWN_VLAN_10)),
        ask(|frame| {
            frame.content = flush(&OWN_VLAN_10);
            frame.content[5] = 1;
        }),
        with(|frame| frame.content = flush(&OWN_VLAN_10)),
        // 15: nothing, a cut block, P7 and P8 of document 01, a lone last byte that is not 0
        ask(|frame| frame.content = flush(&[])),
        ask(|frame| frame.content = flush(&OWN_VLAN_10[..5])),
        ask(|frame| frame.content = flush(&[0x00, 0x00, 0x01, 0x03, 0x00, 0x0A, 0x00])),
        ask(|frame| frame.content = flush(&[0x00, 0x00, 0x06, 0x01])),
        ask(|frame| frame.content = flush(&[0x00, 0x00, 0x06, 0x00, 0x07])),
    ]
}

/// Frames to compact for the port, and some that may not be.
fn to_compact() -> Vec<Vec<u8>> {
    let good = || general(&PORT, 0x1234, station(1));
    vec![
        // P10 of document 01
        Frame {
            content: vec![0x08, 0x00, 0x45, 0x00],
            ..good()
        }
        .bytes(),
        Frame {
            outer_tag: Some(100),
            label: fgl(70_000),
            ..good()
        }
        .bytes(),
        to_all(good()).bytes(),
        // P11 of document 01
        Frame {
            inner_destination: ALL_EGRESS,
            ..good()
        }
        .bytes(),
        Frame {
            inner_destination: PORT.port,
            ..good()
        }
        .bytes(),
        Frame {
            compact: true,
            ..good()
        }
        .bytes(),
        good().bytes()[..30].to_vec(),
    ]
}

/// Stations behind one switch of the lab, for the other: two of VLAN 10, one of VLAN 20, one of a fine-grained label.
fn lab(to: &Settings, ingress: u32, first: u64) -> Vec<Vec<u8>> {
    let from = |number| general(to, ingress as u16, station(first + number));
    vec![
        from(0).bytes(),
        Frame {
            label: vlan(20),
            ..from(1)
        }
        .bytes(),
        Frame {
            label: fgl(70_000),
            outer_tag: Some(100),
            ..from(2)
        }
        .bytes(),
        to_all(from(3)).bytes(),
    ]
}

/// A flush of the sender's VLAN 10 from right to left, as it is and cut short.
fn lab_flush(length: usize) -> Vec<Vec<u8>> {
    let frame = Frame {
        inner_destination: PORT.inner,
        label: vlan(1),
        content: flush(&OWN_VLAN_10[..length]),
        ..general(&PORT, RIGHT.nickname as u16, RIGHT.inner)
    };
    vec![frame.bytes()]
}

/// No nickname, so the sender's; one fine-grained label, 70,000.
const OWN_FGL_70000: [u8; 7] = [0x00, 0x00, 0x04, 0x03, 0x01, 0x11, 0x70];

/// Frames as a link pads them, to 60 bytes.
fn pad(frame: &Frame) -> Vec<u8> {
    let mut bytes = frame.bytes();
    bytes.resize(bytes.len().max(60), 0);
    bytes
}

/// The customer's flush of document 02, 2026-02: a VLAN label, one label of type 4, 49 bytes, and padded to 60. As it is, padded and
/// compacted, each after a frame from which the label is learned; then one whose lone last byte is not 0.
pub fn padded() -> Vec<Vec<u8>> {
    let learned = || {
        Frame {
            label: fgl(70_000),
            ..general(&PORT, 0x1234, station(8))
        }
        .bytes()
    };
    let gone = Frame {
        inner_destination: PORT.inner,
        label: vlan(1),
        content: flush(&OWN_FGL_70000),
        ..general(&PORT, 0x1234, RIGHT.inner)
    };
    let compact = Frame {
        compact: true,
        ..gone.clone()
    };
    let mut other = pad(&gone);
    other[59] = 1;
    assert_eq!(gone.bytes().len(), 49);
    vec![
        learned(),
        gone.bytes(),
        learned(),
        pad(&gone),
        learned(),
        pad(&compact),
        learned(),
        other,
    ]
}

/// P10 with addresses in and beside the set of 2026-09: as inner destinations of a General frame, and in front of a Compact one.
pub fn control() -> Vec<(Vec<u8>, Vec<u8>)> {
    [0x00, 0x0F, 0x10, 0x20, 0x21, 0x22]
        .into_iter()
        .map(|last| {
            let inside = Frame {
                inner_destination: 0x0180_C200_0000 + last,
                ..general(&PORT, 0x1234, station(1))
            };
            let front = Frame {
                compact: true,
                ..inside.clone()
            };
            (inside.bytes(), front.bytes())
        })
        .collect()
}

/// The frames of each capture, by the capture's name.
pub fn all() -> Vec<(&'static str, Vec<Vec<u8>>)> {
    vec![
        ("hall", hall()),
        ("refusals", refusals()),
        ("padded", padded()),
        ("to_compact", to_compact()),
        ("lab_to_left", lab(&PORT, RIGHT.nickname, 0x10)),
        ("lab_to_right", lab(&RIGHT, PORT.nickname, 0x20)),
        ("lab_flush", lab_flush(OWN_VLAN_10.len())),
        ("lab_cut", lab_flush(OWN_VLAN_10.len() - 1)),
    ]
}
