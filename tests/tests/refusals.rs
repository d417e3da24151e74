//! The table of docs/FORMATS.md, "The order of refusals", tried on the library: of every two tests that a
//! call fails, the one in the higher row gives the number.

use std::collections::BTreeSet;
use std::fs;
use std::path::Path;

use shinglebar::raw;
use shinglebar_tests::reference::RECORD;

const PORT: [u8; 6] = [0x02, 0, 0, 0, 0, 0xA1];
const INNER: [u8; 6] = [0x02, 0, 0, 0, 0, 0xB1];

/// The bytes of 01-80-C2-00-00-40 to :4F.
fn group(last: u8) -> Vec<u8> {
    vec![0x01, 0x80, 0xC2, 0x00, 0x00, last]
}

#[derive(Clone, Copy, PartialEq)]
enum Part {
    OuterDestination,
    OuterSource,
    Tag,
    Trill,
    Header,
    Options,
    Destination,
    Source,
    Label,
    Content,
}
use Part::*;

/// A call before it is made.
struct Try {
    settings: raw::Settings,
    outer: raw::Outer,
    table: usize,
    out: usize,
    parts: Vec<(Part, Vec<u8>)>,
    /// Where the frame ends: so many bytes of a part.
    cuts: Vec<(Part, usize)>,
    too_short: bool,
}

impl Try {
    fn part(&mut self, part: Part) -> &mut Vec<u8> {
        let found = self.parts.iter_mut().find(|(is, _)| *is == part);
        &mut found.expect("the part").1
    }

    fn frame(&self) -> Vec<u8> {
        let mut frame = Vec::new();
        for (part, bytes) in &self.parts {
            let cuts = self.cuts.iter().filter(|(cut, _)| cut == part);
            let Some((_, kept)) = cuts.min_by_key(|(_, kept)| kept) else {
                frame.extend(bytes);
                continue;
            };
            frame.extend(&bytes[..*kept]);
            break;
        }
        frame.truncate(if self.too_short { 13 } else { frame.len() });
        frame
    }
}

/// The order of the calls of document 02 that have one: of every two faults the earlier gives the number.
#[test]
fn why_refuses_in_its_order() {
    for (length, slot, payload, word) in [
        (RECORD, 0, &[0, 0][..], 64),
        (RECORD - 1, 0, &[0, 0], 2),
        (RECORD - 1, 1, &[0, 0], 2),
        (RECORD - 1, 0, &[], 2),
        (RECORD - 1, 1, &[], 2),
        (RECORD, 1, &[0, 0], 24),
        (RECORD, 1, &[], 24),
        (RECORD, u64::MAX, &[], 24),
        (RECORD, 0, &[], 15),
        (4096 * RECORD, 4095, &[0, 0], 64),
        (4096 * RECORD, 4096, &[0, 0], 24),
        (4097 * RECORD, 4096, &[0, 0], 2),
        (0, 0, &[], 2),
    ] {
        let table = vec![0; length];
        assert_eq!(
            raw::why(0x1234, payload, slot, &table),
            word,
            "{length}, {slot}, {payload:?}"
        );
    }
}

/// 25 of any piece is before 26, and both are before 16.
#[test]
fn hello_read_refuses_in_its_order() {
    const PARAMETERS: &[u8] = &[0xFB, 9, 0, 0, 1, 22, 4, 0, 30, 0, 0];
    const CORRUPT: &[u8] = &[0xF2, 4, 0, 0, 0, 0];
    const SKIPPED: &[u8] = &[145, 0];
    for (payload, word) in [
        (vec![PARAMETERS], 64 | 48 << 8),
        (vec![PARAMETERS, SKIPPED], 64 | 48 << 8),
        (vec![PARAMETERS, PARAMETERS], 25),
        (vec![PARAMETERS, CORRUPT], 25),
        (vec![CORRUPT, PARAMETERS], 25),
        (vec![SKIPPED, CORRUPT], 25),
        (vec![CORRUPT], 25),
        (vec![SKIPPED], 26),
        (vec![], 26),
    ] {
        let payload = payload.concat();
        for room in [0, 40, 47, 48, 49] {
            let mut area = vec![0xEE; room];
            let expected = if word > 26 && room < 48 { 16 } else { word };
            let called = raw::hello_read(&payload, &mut area);
            assert_eq!(called, expected, "{payload:?}, {room}");
            assert!(called > 26 || area == vec![0xEE; room]);
        }
    }
}

/// 25 of any number is before 26, and both are before 16.
#[test]
fn hello_write_refuses_in_its_order() {
    for (numbers, word) in [
        (&[1, 30, 0, 0, 0, 0][..], 64 | 11 << 8),
        (&[0, 0, 0, 0], 26),
        (&[0, 0, 0, 1, 0, 0, 10, 0], 26),
        (&[0, 0, 0, 1, 0, 0, 0x1000, 0], 25),
        (&[0, 0, 0, 1, 0, 2, 10, 0], 25),
        (&[0, 0, 0, 0, 0], 25),
        (&[0, 0, 0], 25),
        (&[2, 30, 0, 30, 0, 0, 0, 0], 25),
        (&[1, 1 << 16, 0, 0, 0, 0], 25),
        (&[1, 30, 0, 0, 0, 1], 25),
        (&[1, 30, 0, 0, 0, 1, 0, 0, 0x1000, 0], 25),
        (&[], 25),
    ] {
        let contents: Vec<u8> = numbers.iter().flat_map(|n: &u64| n.to_be_bytes()).collect();
        for room in [0, 10, 11, 12] {
            let mut out = vec![0xEE; room];
            let expected = if word > 26 && room < 11 { 16 } else { word };
            let called = raw::hello_write(&contents, &mut out);
            assert_eq!(called, expected, "{numbers:?}, {room}");
            assert!(called > 26 || out == vec![0xEE; room]);
        }
    }
}

/// What makes a call fail the test of a step; the number is that of `row`, which is another one where the
/// step refers to it.
struct Fault {
    step: usize,
    row: usize,
    make: Box<dyn Fn(&mut Try)>,
    cuts: bool,
}

fn fault(step: usize, make: impl Fn(&mut Try) + 'static) -> Fault {
    Fault {
        step,
        row: step,
        make: Box::new(make),
        cuts: false,
    }
}

/// The frame ends after so many bytes of the part.
fn cut(step: usize, part: Part, kept: usize) -> Fault {
    Fault {
        cuts: true,
        ..fault(step, move |t| t.cuts.push((part, kept)))
    }
}

/// A call with a frame: receive, compact, send or expand, by the letter of the table.
#[derive(Clone, Copy)]
struct Case {
    call: char,
    compact: bool,
    fine: bool,
    channel: bool,
}

impl Case {
    /// The call that is not refused.
    fn good(self) -> Try {
        let mut parts = vec![
            (Trill, vec![0x22, 0xF3]),
            (Header, vec![0x00, 0x45, 0x01, 0x02, 0x12, 0x34]),
            (Options, vec![0x77; 4]),
        ];
        let destination = match self.channel {
            true => INNER.to_vec(),
            false => vec![0x02, 0, 0, 0, 0, 0x0D],
        };
        let label = match self.fine {
            true => vec![0x89, 0x3B, 0x01, 0x23, 0x89, 0x3B, 0x04, 0x56],
            false => vec![0x81, 0x00, 0x00, 0x0A],
        };
        let inside = vec![
            (Destination, destination),
            (Source, vec![0x02, 0, 0, 0, 0, 0x01]),
            (Label, label),
        ];
        if self.compact {
            parts.splice(0..0, inside);
        } else {
            let outside = vec![
                (OuterDestination, PORT.to_vec()),
                (OuterSource, vec![0x02, 0, 0, 0, 0, 0xB2]),
                (Tag, vec![0x81, 0x00, 0x00, 0x05]),
            ];
            parts.splice(0..0, outside);
            parts.extend(inside);
        }
        let content = match self.channel {
            true => vec![0x89, 0x46, 0x00, 0x09, 0x00, 0x00, 0x00, 0x00],
            false => vec![0x08, 0x00, 0x45, 0x00],
        };
        parts.push((Content, content));
        Try {
            settings: raw::Settings {
                port: 0x0200_0000_00A1,
                inner: 0x0200_0000_00B1,
                nickname: 0x0102,
                compact: 1,
                confidence: 20,
                seconds: 0,
                multihomed: 0,
                smart: 0,
            },
            outer: raw::Outer {
                source: 0x0200_0000_00B2,
                tagged: 1,
                tag: 5,
            },
            table: RECORD,
            out: 9216,
            parts,
            cuts: Vec::new(),
            too_short: false,
        }
    }

    fn word(self, t: &Try) -> u64 {
        let (frame, mut table, mut out) = (t.frame(), vec![0; t.table], vec![0; t.out]);
        match self.call {
            'R' => raw::receive(&t.settings, &frame, &mut table, &mut out),
            'C' => raw::compact(&t.settings, &frame, &mut out),
            'S' => raw::send(&t.settings, &frame, &mut out),
            _ => raw::expand(&t.settings, &t.outer, &frame, &mut out),
        }
    }

    /// The faults that the call can have, step by step.
    fn faults(self) -> Vec<Fault> {
        let mut faults = vec![fault(1, |t| t.settings.seconds = 5)];
        if self.call == 'E' {
            faults.push(fault(2, |t| t.outer.source |= 1 << 40));
            faults.push(fault(3, |t| t.outer.tag = 0));
        }
        if self.call == 'R' {
            faults.push(fault(4, |t| t.table = RECORD - 1));
        }
        if self.call == 'S' {
            faults.push(fault(5, |t| t.out = 9203));
        }
        faults.push(Fault {
            cuts: true,
            ..fault(6, |t| t.too_short = true)
        });
        if self.call == 'E' {
            faults.push(fault(7, |t| {
                let rest = t.frame().len() - t.part(Content).len();
                t.part(Content).resize(9201 - rest, 0);
            }));
        }
        let front = match self.compact {
            true => Destination,
            false => OuterDestination,
        };
        faults.push(fault(8, move |t| *t.part(front) = group(0x41)));
        match self.call {
            'R' if self.compact => faults.push(fault(9, |t| t.settings.compact = 0)),
            'C' | 'S' => faults.push(fault(10, |t| t.part(OuterDestination)[5] = 0x0F)),
            'E' => faults.push(fault(11, |t| *t.part(Destination) = PORT.to_vec())),
            _ => {}
        }
        if self.compact {
            faults.extend(
                self.label_faults()
                    .into_iter()
                    .map(|f| Fault { step: 14, ..f }),
            );
            faults.push(cut(15, Trill, 1));
            faults.push(fault(16, |t| t.part(Trill)[1] = 0xF4));
        } else {
            faults.extend([cut(12, Tag, 3), cut(12, Trill, 1)]);
            faults.push(fault(13, |t| t.part(Trill)[0] = 0x23));
        }
        faults.push(cut(17, Header, 5));
        faults.push(fault(18, |t| t.part(Header)[0] |= 0x40));
        if !self.compact {
            faults.push(fault(19, |t| t.part(Header)[0] |= 0x08));
        }
        faults.push(cut(20, Options, 3));
        if !self.compact {
            faults.extend([cut(21, Destination, 5), cut(21, Source, 5)]);
            faults.extend(self.label_faults());
        }
        faults.push(cut(28, Content, 1));
        if self.call == 'C' {
            faults.push(fault(29, |t| *t.part(Destination) = group(0x42)));
            faults.push(fault(29, |t| *t.part(Destination) = PORT.to_vec()));
        }
        if self.call == 'R' {
            faults.push(fault(30, |t| t.part(Header)[1] &= 0xC0));
            faults.push(fault(31, |t| {
                t.part(Header)[4..].copy_from_slice(&[0x01, 0x02])
            }));
            faults.push(fault(32, |t| t.part(Source)[0] |= 1));
        }
        match (self.call, self.channel) {
            ('R', true) => {
                faults.push(cut(34, Content, 5));
                faults.push(fault(35, |t| t.part(Content)[2] |= 0x10));
                faults.push(fault(36, |t| t.part(Content)[6] = 1));
            }
            // in front of a Compact frame it is another address
            ('R', false) if !self.compact => {
                faults.push(fault(33, |t| *t.part(Destination) = group(0x43)));
                faults.push(fault(37, |t| t.out = 15));
            }
            ('S', _) => {}
            _ => faults.push(fault(37, |t| t.out = 15)),
        }
        faults
    }

    fn label_faults(self) -> Vec<Fault> {
        let ethertype = fault(23, |t| t.part(Label)[..2].copy_from_slice(&[0x88, 0xA8]));
        let mut faults = vec![ethertype, cut(24, Label, 3)];
        // the shortest Compact frame has an Ethertype there
        if !self.compact {
            faults.insert(0, cut(22, Label, 1));
        }
        if self.fine {
            faults.push(cut(24, Label, 5));
            faults.push(fault(26, |t| t.part(Label)[4] = 0x81));
            faults.push(cut(27, Label, 7));
        } else {
            faults.push(fault(25, |t| t.part(Label)[3] = 0));
        }
        faults
    }
}

/// The cells of each row: step, test, numbers, calls, definition.
fn rows() -> Vec<Vec<String>> {
    let file = Path::new(env!("CARGO_MANIFEST_DIR")).join("../docs/FORMATS.md");
    let document = fs::read_to_string(file).expect("docs/FORMATS.md");
    let start = document.find("## The order of refusals").expect("it");
    let section = document[start..].split("\n## Answers").next().expect("it");
    let rows = section
        .lines()
        .filter(|line| line.starts_with("| "))
        .skip(1);
    rows.map(|row| {
        let cells = row.trim_matches('|').split('|');
        cells.map(|cell| cell.trim().to_owned()).collect()
    })
    .collect()
}

#[test]
fn of_two_tests_that_fail_the_one_in_the_higher_row_gives_the_number() {
    let rows = rows();
    let number = |step: usize| -> u64 { rows[step - 1][2].parse().expect("one number") };
    let mut tried = BTreeSet::new();
    for (call, compact) in [
        ('R', false),
        ('R', true),
        ('C', false),
        ('S', false),
        ('E', true),
    ] {
        for (fine, channel) in [(false, false), (true, false), (false, true), (true, true)] {
            let case = Case {
                call,
                compact,
                fine,
                channel,
            };
            // sending and the conversions do not look at the content
            if channel && call != 'R' {
                continue;
            }
            assert!(case.word(&case.good()) >= 64);
            let faults = case.faults();
            for (at, first) in faults.iter().enumerate() {
                tried.insert((first.step, call));
                for other in &faults[at..] {
                    // a frame that is cut is not too long
                    if first.step == 7 && other.cuts {
                        continue;
                    }
                    // Both may write the same bytes: the first fault stands.
                    let mut t = case.good();
                    (other.make)(&mut t);
                    (first.make)(&mut t);
                    assert_eq!(
                        case.word(&t),
                        number(first.row),
                        "{call}, Compact {compact}, fine-grained {fine}, channel {channel}: steps {} and {}",
                        first.step,
                        other.step
                    );
                }
            }
        }
    }

    // the calls without a frame
    assert_eq!(raw::flush(0x1234, &[0, 0], &mut [0; RECORD]), 67);
    assert_eq!(raw::flush(0x1234, &[], &mut [0; RECORD - 1]), number(4));
    assert_eq!(raw::flush(0x1234, &[], &mut [0; RECORD]), number(36));
    assert_eq!(raw::lookup(0, 10, 1, &[0; RECORD - 1]), number(4));
    assert_eq!(raw::age(1, &mut [0; RECORD - 1]), number(4));
    assert_eq!(raw::spoilt(&[0; RECORD - 1]), number(4));
    tried.extend([(4, 'F'), (36, 'F'), (4, 'T')]);
    let write =
        |vlans: &[u8], room: usize| raw::write_flush(&[], vlans, &[], &[], &mut [0; 6][..room]);
    assert_eq!(write(&[0, 10, 0, 12], 6), 64 | 6 << 8);
    assert_eq!(write(&[0, 12, 0, 10], 0), number(38));
    assert_eq!(write(&[0, 12, 0, 10], 6), number(38));
    assert_eq!(write(&[0, 10, 0, 12], 5), number(39));
    tried.extend([(38, 'W'), (39, 'W')]);

    // every step was tried at every call that it names, and at no other
    let named = rows.iter().enumerate().flat_map(|(at, cells)| {
        let calls = cells[3].chars().filter(|call| *call != ' ');
        calls.map(move |call| (at + 1, call))
    });
    assert_eq!(tried, named.collect::<BTreeSet<(usize, char)>>());
}
