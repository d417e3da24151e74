//! What tshark says of General frames that the library made (tests/outside), compared with what the
//! second implementation and the library read of them. tshark is not run here; `make outside` runs it.

use std::collections::BTreeSet;
use std::fs;
use std::path::Path;

use shinglebar_tests::boundary;
use shinglebar_tests::compare::hex;
use shinglebar_tests::outside::{self, PORT};
use shinglebar_tests::random::Random;
use shinglebar_tests::reference::{self, Entry, Fields, Label, Record, Settings, RECORD};

const C_TAG: u16 = 0x8100;
const FINE_TAG: u16 = 0x893B;

fn file(name: &str) -> Vec<u8> {
    let path = Path::new(env!("CARGO_MANIFEST_DIR"))
        .join("outside")
        .join(name);
    fs::read(&path).unwrap_or_else(|error| panic!("{}: {error}", path.display()))
}

/// A tag as tshark reads it, with the Ethertype in front of it and the one behind.
#[derive(Clone, Copy)]
struct Tag {
    ethertype: u16,
    priority: u8,
    dei: u8,
    number: u16,
    behind: u16,
}

impl Tag {
    /// The two bytes behind the tag's Ethertype.
    fn bits(&self) -> u16 {
        u16::from(self.priority) << 13 | u16::from(self.dei) << 12 | self.number
    }

    fn bytes(&self) -> Vec<u8> {
        [self.ethertype, self.bits()].map(u16::to_be_bytes).concat()
    }
}

/// A line of tshark: the fields of a frame, all of them tshark's.
struct Judged {
    number: usize,
    length: usize,
    outer_destination: u64,
    outer_source: u64,
    outer_tag: Option<Tag>,
    version: u8,
    reserved: u8,
    multicast: bool,
    option_length: usize,
    hop_count: u8,
    egress: u16,
    ingress: u16,
    options: String,
    inner_destination: u64,
    inner_source: u64,
    /// One of a VLAN label, two of a fine-grained one.
    label: Vec<Tag>,
    ethertype: u16,
    data: String,
}

fn address(text: &str) -> u64 {
    u64::from_str_radix(&text.replace(':', ""), 16).expect("an address")
}

fn number(text: &str) -> u64 {
    let number = match text.strip_prefix("0x") {
        Some(digits) => u64::from_str_radix(digits, 16),
        None => text.parse(),
    };
    number.unwrap_or_else(|error| panic!("{text}: {error}"))
}

fn numbers(text: &str) -> Vec<u64> {
    let parts = text.split(',').filter(|part| !part.is_empty());
    parts.map(number).collect()
}

impl Judged {
    /// Of the columns of the heading and those of the line.
    fn new(heading: &[&str], line: &[&str]) -> Judged {
        assert_eq!(heading.len(), line.len());
        let column = |name: &str| -> &str {
            let place = heading.iter().position(|column| *column == name);
            line[place.unwrap_or_else(|| panic!("no column {name}"))]
        };
        let one = |name: &str| number(column(name));
        let two = |name: &str| -> [u64; 2] {
            let both: Vec<u64> = column(name).split(',').map(address).collect();
            both.try_into().expect("an outer and an inner address")
        };
        assert_eq!(column("_ws.expert.message"), "", "tshark has a complaint");
        let [outer_destination, inner_destination] = two("eth.dst");
        let [outer_source, inner_source] = two("eth.src");
        let [front, inner] = numbers(column("eth.type"))[..] else {
            panic!("not an outer and an inner Ethertype");
        };
        let behind = numbers(column("vlan.etype"));
        let mut tags = Vec::new();
        let mut ethertype = front;
        for (place, behind) in behind.iter().enumerate() {
            if ethertype == 0x22F3 {
                ethertype = inner;
            }
            let of_tag = |name: &str| numbers(column(name))[place];
            tags.push(Tag {
                ethertype: ethertype as u16,
                priority: of_tag("vlan.priority") as u8,
                dei: of_tag("vlan.dei") as u8,
                number: of_tag("vlan.id") as u16,
                behind: *behind as u16,
            });
            ethertype = *behind;
        }
        let outer_tag = (front == u64::from(C_TAG)).then(|| tags.remove(0));
        let trill = outer_tag.map_or(front as u16, |tag| tag.behind);
        assert_eq!(trill, 0x22F3);
        Judged {
            number: one("frame.number") as usize,
            length: one("frame.len") as usize,
            outer_destination,
            outer_source,
            outer_tag,
            version: one("trill.version") as u8,
            reserved: one("trill.reserved") as u8,
            multicast: one("trill.multi_dst") == 1,
            option_length: one("trill.op_len") as usize,
            hop_count: one("trill.hop_cnt") as u8,
            egress: one("trill.egress_nick") as u16,
            ingress: one("trill.ingress_nick") as u16,
            options: column("trill.options").to_uppercase(),
            inner_destination,
            inner_source,
            label: tags,
            ethertype: ethertype as u16,
            data: column("data.data").to_uppercase(),
        }
    }

    /// tshark reads two tags of 12 bits; that they are one number of 24 is our reading.
    fn label(&self) -> Label {
        match self.label[..] {
            [vlan] if vlan.ethertype == C_TAG => Label::Vlan(vlan.number),
            [high, low] if [high.ethertype, low.ethertype] == [FINE_TAG; 2] => {
                Label::Fine(u32::from(high.number) << 12 | u32::from(low.number))
            }
            _ => panic!("frame {}: not a label", self.number),
        }
    }

    fn content(&self) -> String {
        format!("{:04X}{}", self.ethertype, self.data)
    }

    fn native(&self) -> String {
        let (destination, source) = (self.inner_destination, self.inner_source);
        format!("{destination:012X}{source:012X}{}", self.content())
    }

    /// Of a port that delivers the frame.
    fn settings(&self) -> Settings {
        Settings {
            port: if self.multicast {
                PORT
            } else {
                self.outer_destination
            },
            inner: 0x0200_0000_00E1,
            nickname: u32::from(self.egress),
            compact: 0,
            confidence: 77,
            seconds: 1234,
            multihomed: 0,
            smart: 0,
        }
    }

    /// The second implementation reads what tshark reads.
    fn compare_with_reference(&self, frame: &[u8]) {
        let fields: Fields = reference::read_general(frame)
            .unwrap_or_else(|refusal| panic!("frame {}: {refusal:?}", self.number));
        let header = fields.header;
        assert_eq!(self.length, frame.len());
        assert_eq!(self.version, header[0] >> 6);
        assert_eq!(self.reserved, header[0] >> 4 & 3);
        assert_eq!(self.multicast, fields.multicast);
        assert_eq!(6 + 4 * self.option_length, header.len());
        assert_eq!(self.options, hex(&header[6..]));
        assert_eq!(self.hop_count, fields.hop_count);
        assert_eq!(self.egress, fields.egress);
        assert_eq!(self.ingress, fields.ingress);
        assert_eq!(self.inner_destination, fields.inner_destination);
        assert_eq!(self.inner_source, fields.inner_source);
        assert_eq!(self.label(), fields.label);
        let label: Vec<u8> = self.label.iter().flat_map(Tag::bytes).collect();
        assert_eq!(label, fields.label_bytes);
        assert_eq!(self.content(), hex(fields.content));
    }

    /// The front of the frame, of which reading looks at the destination only, is what expansion was
    /// to write: the far port or :40, and the tag with priority and DEI 0.
    fn compare_front(&self, frame: &[u8]) {
        let (destination, source) = (self.outer_destination, self.outer_source);
        let mut front = format!("{destination:012X}{source:012X}");
        if let Some(tag) = self.outer_tag {
            assert_eq!((tag.priority, tag.dei), (0, 0));
            front.push_str(&hex(&tag.bytes()));
        }
        assert!(hex(frame).starts_with(&format!("{front}22F3")));
        let to = if self.multicast {
            0x0180_C200_0040
        } else {
            PORT
        };
        assert_eq!(destination, to);
    }

    /// The library reads what tshark reads: it delivers the frame at its egress, with the label, the
    /// addresses and the content, and learns the source; elsewhere a frame with M 0 goes onward.
    fn compare_with_library(&self, random: &mut Random, frame: &[u8]) {
        let settings = self.settings();
        let given = random.bytes(frame.len());
        let (mut table, mut out) = (vec![0; 2 * RECORD], given.clone());
        let word = boundary::receive(random, &settings, frame, &mut table, &mut out);
        if self.hop_count == 0 {
            assert_eq!(word, 8);
            assert_eq!((table, out), (vec![0; 2 * RECORD], given));
            return;
        }
        let label = self.label();
        let native = self.native();
        let length = native.len() / 2;
        let delivered = 65
            | (length as u64) << 8
            | u64::from(label.kind()) << 32
            | u64::from(label.number()) << 40;
        assert_eq!(word, delivered, "{word:#x} is not {delivered:#x}");
        assert_eq!(hex(&out[..length]), native);
        assert_eq!(out[length..], given[length..]);

        let entry = Entry {
            label,
            mac: self.inner_source,
            nickname: self.ingress,
            confidence: 77,
            seconds: 1234,
            multihomed: false,
        };
        let (first, second) = table.split_at(RECORD);
        assert_eq!(reference::read(first), Record::Learned(entry));
        assert_eq!(reference::read(second), Record::Free);
        let (kind, number) = (u32::from(label.kind()), label.number());
        let found = boundary::lookup(random, kind, number, self.inner_source, &table);
        assert_eq!(found, 64 | u64::from(self.ingress) << 8);

        let elsewhere = Settings {
            nickname: (1..)
                .find(|other| ![self.egress, self.ingress].contains(other))
                .map_or(0, u32::from),
            ..settings
        };
        let mut table = vec![0; 2 * RECORD];
        let word = boundary::receive(random, &elsewhere, frame, &mut table, &mut out);
        assert_eq!(word, if self.multicast { delivered } else { 64 });
    }
}

fn judged() -> Vec<Judged> {
    let text = String::from_utf8(file("tshark.txt")).expect("text");
    let mut lines = text.lines().map(|line| line.split('\t').collect());
    let heading: Vec<&str> = lines.next().expect("a heading");
    lines
        .map(|line: Vec<&str>| Judged::new(&heading, &line))
        .collect()
}

#[test]
fn the_stored_capture_is_what_the_library_makes() {
    assert!(
        file("frames.pcap") == outside::capture(&outside::frames()),
        "tests/outside/frames.pcap: run `make outside-write`"
    );
}

#[test]
fn tshark_reads_each_frame_as_the_second_implementation_and_the_library_do() {
    let random = &mut Random::new(1);
    let frames = outside::frames();
    let judged = judged();
    assert_eq!(judged.len(), frames.len());
    for ((place, judged), frame) in judged.iter().enumerate().zip(&frames) {
        assert_eq!(judged.number, place + 1);
        println!("frame {}: {}", judged.number, hex(frame));
        judged.compare_with_reference(frame);
        judged.compare_front(frame);
        judged.compare_with_library(random, frame);
    }
}

#[test]
fn the_frames_are_of_every_sort() {
    let judged = judged();
    let (expanded, converted) = judged.split_at(judged.len() / 2);
    for half in [expanded, converted] {
        let options: BTreeSet<usize> = half.iter().map(|line| line.option_length).collect();
        assert!(options.into_iter().eq(0..32), "options of 0 to 31 words");
        let sorts: BTreeSet<(bool, bool, u8)> = half
            .iter()
            .map(|line| {
                let tagged = line.outer_tag.is_some();
                (line.multicast, tagged, line.label().kind())
            })
            .collect();
        assert_eq!(sorts.len(), 8, "M, outer tag and kind of label");
        let hops: BTreeSet<u8> = half.iter().map(|line| line.hop_count).collect();
        for hop_count in [0, 1, 2, 4, 8, 16, 32, 63] {
            assert!(hops.contains(&hop_count), "hop count {hop_count}");
        }
    }
    let has = |wanted: Label| judged.iter().any(|line| line.label() == wanted);
    assert!(has(Label::Vlan(0x001)) && has(Label::Vlan(0xFFE)));
    assert!(has(Label::Fine(0)) && has(Label::Fine(0xFF_FFFF)));
    // VLAN 10 and fine-grained 10 are different labels.
    assert!(has(Label::Vlan(10)) && has(Label::Fine(10)));
    for nickname in [0x0001, 0xFFBF] {
        assert!(judged.iter().any(|line| line.egress == nickname));
        assert!(judged.iter().any(|line| line.ingress == nickname));
    }
    assert!(judged
        .iter()
        .any(|line| line.data.is_empty() && line.hop_count > 0));
}
