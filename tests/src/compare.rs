//! Each call made twice, to the library and to the second implementation: the words and all bytes of
//! every area must be equal.

use crate::boundary;
use crate::lend::Lend;
use crate::reference::{self, Encapsulation, Settings};

/// Bytes in hexadecimal.
pub fn hex(bytes: &[u8]) -> String {
    bytes.iter().map(|byte| format!("{byte:02X}")).collect()
}

/// The first differing byte of an area, with some bytes from there.
fn difference(name: &str, library: &[u8], reference: &[u8]) -> String {
    match library.iter().zip(reference).position(|(a, b)| a != b) {
        Some(at) => format!(
            "{name} differs from byte {at}: library {}.., paper {}..\n",
            hex(&library[at..library.len().min(at + 16)]),
            hex(&reference[at..reference.len().min(at + 16)])
        ),
        None => String::new(),
    }
}

fn words(library: u64, reference: u64) -> String {
    if library == reference {
        String::new()
    } else {
        format!("the word differs: library {library:#x}, paper {reference:#x}\n")
    }
}

pub fn lookup(lender: &mut impl Lend, kind: u32, label: u32, mac: u64, table: &[u8]) -> u64 {
    let library = boundary::lookup(lender, kind, label, mac, table);
    let paper = reference::lookup(kind, label, mac, table);
    assert!(
        library == paper,
        "lookup: {}kind {kind:#x}\nlabel {label:#x}\nmac {mac:#x}\ntable {}",
        words(library, paper),
        hex(table)
    );
    paper
}

pub fn age(lender: &mut impl Lend, seconds: u16, table: &mut [u8]) -> u64 {
    let given = table.to_vec();
    let mut after = table.to_vec();
    let library = boundary::age(lender, seconds, &mut after);
    let paper = reference::age(seconds, table);
    assert!(
        library == paper && after == table,
        "age: {}{}seconds {seconds}\ntable {}",
        words(library, paper),
        difference("table", &after, table),
        hex(&given)
    );
    paper
}

pub fn spoilt(lender: &mut impl Lend, table: &[u8]) -> u64 {
    let library = boundary::spoilt(lender, table);
    let paper = reference::spoilt(table);
    assert!(
        library == paper,
        "spoilt: {}table {}",
        words(library, paper),
        hex(table)
    );
    paper
}

pub fn free_slot(lender: &mut impl Lend, table: &[u8]) -> u64 {
    let library = boundary::free_slot(lender, table);
    let paper = reference::free_slot(table);
    assert!(
        library == paper,
        "free slot: {}table {}",
        words(library, paper),
        hex(table)
    );
    paper
}

pub fn flush(lender: &mut impl Lend, ingress: u32, payload: &[u8], table: &mut [u8]) -> u64 {
    let given = table.to_vec();
    let mut after = table.to_vec();
    let library = boundary::flush(lender, ingress, payload, &mut after);
    let paper = reference::flush(ingress, payload, table);
    assert!(
        library == paper && after == table,
        "flush: {}{}ingress {ingress:#x}\npayload {}\ntable {}",
        words(library, paper),
        difference("table", &after, table),
        hex(payload),
        hex(&given)
    );
    paper
}

pub fn flush_vlan_only(
    lender: &mut impl Lend,
    ingress: u32,
    payload: &[u8],
    table: &mut [u8],
) -> u64 {
    let given = table.to_vec();
    let mut after = table.to_vec();
    let library = boundary::flush_vlan_only(lender, ingress, payload, &mut after);
    let paper = reference::flush_vlan_only(ingress, payload, table);
    assert!(
        library == paper && after == table,
        "flush_vlan_only: {}{}ingress {ingress:#x}\npayload {}\ntable {}",
        words(library, paper),
        difference("table", &after, table),
        hex(payload),
        hex(&given)
    );
    paper
}

pub fn flush_portion(
    lender: &mut impl Lend,
    ingress: u32,
    payload: &[u8],
    slot: u64,
    k: u64,
    table: &mut [u8],
) -> u64 {
    let given = table.to_vec();
    let mut after = table.to_vec();
    let library = boundary::flush_portion(lender, ingress, payload, slot, k, &mut after);
    let paper = reference::flush_portion(ingress, payload, slot, k, table);
    assert!(
        library == paper && after == table,
        "flush_portion: {}{}ingress {ingress:#x}\nslot {slot}\nk {k}\npayload {}\ntable {}",
        words(library, paper),
        difference("table", &after, table),
        hex(payload),
        hex(&given)
    );
    paper
}

pub fn why(lender: &mut impl Lend, ingress: u32, payload: &[u8], slot: u64, table: &[u8]) -> u64 {
    let library = boundary::why(lender, ingress, payload, slot, table);
    let paper = reference::why(ingress, payload, slot, table);
    assert!(
        library == paper,
        "why: {}ingress {ingress:#x}\nslot {slot}\npayload {}\ntable {}",
        words(library, paper),
        hex(payload),
        hex(table)
    );
    paper
}

pub fn receive(
    lender: &mut impl Lend,
    settings: &Settings,
    frame: &[u8],
    table: &mut [u8],
    out: &mut [u8],
) -> u64 {
    let (given_table, given_out) = (table.to_vec(), out.to_vec());
    let (mut after_table, mut after_out) = (table.to_vec(), out.to_vec());
    let library = boundary::receive(lender, settings, frame, &mut after_table, &mut after_out);
    let paper = reference::receive(settings, frame, table, out);
    assert!(
        library == paper && after_table == table && after_out == out,
        "receive: {}{}{}{settings:#x?}\nframe {}\ntable {}\noutput area {}",
        words(library, paper),
        difference("table", &after_table, table),
        difference("output area", &after_out, out),
        hex(frame),
        hex(&given_table),
        hex(&given_out)
    );
    paper
}

/// What `receive_port` gives: the word, and the areas after the call in `table` and `out`.
pub fn receive_port(
    lender: &mut impl Lend,
    settings: &Settings,
    map: &[u8],
    frame: &[u8],
    table: &mut [u8],
    out: &mut [u8],
) -> u64 {
    let (given_table, given_out) = (table.to_vec(), out.to_vec());
    let (mut after_table, mut after_out) = (table.to_vec(), out.to_vec());
    let library = boundary::receive_port(
        lender,
        settings,
        map,
        frame,
        &mut after_table,
        &mut after_out,
    );
    let paper = reference::receive_port(settings, map, frame, table, out);
    assert!(
        library == paper && after_table == table && after_out == out,
        "receive_port: {}{}{}{settings:#x?}\nmap {}\nframe {}\ntable {}\noutput area {}",
        words(library, paper),
        difference("table", &after_table, table),
        difference("output area", &after_out, out),
        hex(map),
        hex(frame),
        hex(&given_table),
        hex(&given_out)
    );
    paper
}

pub fn ingress(
    lender: &mut impl Lend,
    settings: &Settings,
    map: &[u8],
    given: &Encapsulation,
    frame: &[u8],
    out: &mut [u8],
) -> u64 {
    let before = out.to_vec();
    let mut after = out.to_vec();
    let library = boundary::ingress(lender, settings, map, given, frame, &mut after);
    let paper = reference::ingress(settings, map, given, frame, out);
    assert!(
        library == paper && after == out,
        "ingress: {}{}{settings:#x?}\nmap {}\n{given:#x?}\nframe {}\noutput area {}",
        words(library, paper),
        difference("output area", &after, out),
        hex(map),
        hex(frame),
        hex(&before)
    );
    paper
}

pub fn compact(lender: &mut impl Lend, settings: &Settings, frame: &[u8], out: &mut [u8]) -> u64 {
    let given = out.to_vec();
    let mut after = out.to_vec();
    let library = boundary::compact(lender, settings, frame, &mut after);
    let paper = reference::compact(settings, frame, out);
    assert!(
        library == paper && after == out,
        "compact: {}{}{settings:#x?}\nframe {}\noutput area {}",
        words(library, paper),
        difference("output area", &after, out),
        hex(frame),
        hex(&given)
    );
    paper
}

pub fn expand(
    lender: &mut impl Lend,
    settings: &Settings,
    outer_source: u64,
    tagged: u32,
    tag: u32,
    frame: &[u8],
    out: &mut [u8],
) -> u64 {
    let given = out.to_vec();
    let mut after = out.to_vec();
    let library = boundary::expand(
        lender,
        settings,
        outer_source,
        tagged,
        tag,
        frame,
        &mut after,
    );
    let paper = reference::expand(settings, outer_source, tagged, tag, frame, out);
    assert!(
        library == paper && after == out,
        "expand: {}{}{settings:#x?}\nouter source {outer_source:#x}\ntagged {tagged:#x}\n\
         tag {tag:#x}\nframe {}\noutput area {}",
        words(library, paper),
        difference("output area", &after, out),
        hex(frame),
        hex(&given)
    );
    paper
}

pub fn send(lender: &mut impl Lend, settings: &Settings, frame: &[u8], work: &mut [u8]) -> u64 {
    let given = work.to_vec();
    let mut after = work.to_vec();
    let library = boundary::send(lender, settings, frame, &mut after);
    let paper = reference::send(settings, frame, work);
    assert!(
        library == paper && after == work,
        "send: {}{}{settings:#x?}\nframe {}\nworking area {}",
        words(library, paper),
        difference("working area", &after, work),
        hex(frame),
        hex(&given)
    );
    paper
}

pub fn widen(lender: &mut impl Lend, old: &[u8], out: &mut [u8]) -> u64 {
    let given = out.to_vec();
    let mut after = out.to_vec();
    let library = boundary::widen(lender, old, &mut after);
    let paper = reference::widen(old, out);
    assert!(
        library == paper && after == out,
        "widen: {}{}older table {}\noutput area {}",
        words(library, paper),
        difference("output area", &after, out),
        hex(old),
        hex(&given)
    );
    paper
}

pub fn report(lender: &mut impl Lend, table: &[u8], out: &mut [u8]) -> u64 {
    let given = out.to_vec();
    let mut after = out.to_vec();
    let library = boundary::report(lender, table, &mut after);
    let paper = reference::report(table, out);
    assert!(
        library == paper && after == out,
        "report: {}{}table {}\noutput area {}",
        words(library, paper),
        difference("output area", &after, out),
        hex(table),
        hex(&given)
    );
    paper
}

pub fn hello_read(lender: &mut impl Lend, payload: &[u8], contents: &mut [u8]) -> u64 {
    let mut after = contents.to_vec();
    let library = boundary::hello_read(lender, payload, &mut after);
    let paper = reference::hello_read(payload, contents);
    assert!(
        library == paper && after == contents,
        "hello_read: {}{}payload {}",
        words(library, paper),
        difference("contents area", &after, contents),
        hex(payload)
    );
    paper
}

pub fn hello_write(lender: &mut impl Lend, contents: &[u8], out: &mut [u8]) -> u64 {
    let mut after = out.to_vec();
    let library = boundary::hello_write(lender, contents, &mut after);
    let paper = reference::hello_write(contents, out);
    assert!(
        library == paper && after == out,
        "hello_write: {}{}contents {}",
        words(library, paper),
        difference("output area", &after, out),
        hex(contents)
    );
    paper
}

pub fn write_flush(
    lender: &mut impl Lend,
    nicknames: &[u8],
    vlans: &[u8],
    fine: &[u8],
    macs: &[u8],
    out: &mut [u8],
) -> u64 {
    let mut after = out.to_vec();
    let library = boundary::write_flush(lender, nicknames, vlans, fine, macs, &mut after);
    let paper = reference::write_flush(nicknames, vlans, fine, macs, out);
    assert!(
        library == paper && after == out,
        "write_flush: {}{}nicknames {}\nVLANs {}\nfine-grained {}\nMACs {}",
        words(library, paper),
        difference("output area", &after, out),
        hex(nicknames),
        hex(vlans),
        hex(fine),
        hex(macs)
    );
    paper
}
