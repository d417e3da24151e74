//! The library through its C boundary.
//!
//! Each call is made on the areas of a lender, by the function of the package in rust/ that gives the
//! word as it is. The package must know the word: it is decoded to the answer, and packed again.

use shinglebar::{
    decode, encode, raw, Aged, Answer, Compacted, Expanded, Flushed, Found, FreeSlot, Ingressed,
    Portioned, ReadHello, Received, ReceivedAtPort, Reported, Sent, Spoilt, Why, Widened, Written,
    WrittenHello,
};

use crate::lend::Lend;
use crate::reference::{Encapsulation, Settings};

pub(crate) fn numbers(settings: &Settings) -> raw::Settings {
    raw::Settings {
        port: settings.port,
        inner: settings.inner,
        nickname: settings.nickname,
        compact: settings.compact,
        confidence: settings.confidence,
        seconds: settings.seconds,
        multihomed: settings.multihomed,
        smart: settings.smart,
    }
}

/// The word, which must be one of the call and no other's.
fn known<A: Answer>(word: u64) -> u64 {
    let outcome = decode::<A>(word).unwrap_or_else(|unknown| panic!("{unknown}"));
    let again = encode(&outcome);
    assert!(again == word, "{word:#x} is packed again as {again:#x}");
    word
}

pub fn receive(
    lender: &mut impl Lend,
    settings: &Settings,
    frame: &[u8],
    table: &mut [u8],
    out: &mut [u8],
) -> u64 {
    known::<Received>(lender.lend(
        [("frame", frame)],
        [("table", table), ("output area", out)],
        |[frame], [table, out]| raw::receive(&numbers(settings), frame, table, out),
    ))
}

pub fn receive_port(
    lender: &mut impl Lend,
    settings: &Settings,
    map: &[u8],
    frame: &[u8],
    table: &mut [u8],
    out: &mut [u8],
) -> u64 {
    known::<ReceivedAtPort>(lender.lend(
        [("map", map), ("frame", frame)],
        [("table", table), ("output area", out)],
        |[map, frame], [table, out]| raw::receive_port(&numbers(settings), map, frame, table, out),
    ))
}

pub fn ingress(
    lender: &mut impl Lend,
    settings: &Settings,
    map: &[u8],
    given: &Encapsulation,
    frame: &[u8],
    out: &mut [u8],
) -> u64 {
    let given = raw::Encapsulation {
        outer_destination: given.outer_destination,
        outer_source: given.outer_source,
        m: given.m,
        hop_count: given.hop_count,
        egress: given.egress,
        ingress: given.ingress,
    };
    known::<Ingressed>(lender.lend(
        [("map", map), ("frame", frame)],
        [("output area", out)],
        |[map, frame], [out]| raw::ingress(&numbers(settings), map, &given, frame, out),
    ))
}

pub fn flush(lender: &mut impl Lend, ingress: u32, payload: &[u8], table: &mut [u8]) -> u64 {
    known::<Flushed>(lender.lend(
        [("payload", payload)],
        [("table", table)],
        |[payload], [table]| raw::flush(ingress, payload, table),
    ))
}

pub fn flush_vlan_only(
    lender: &mut impl Lend,
    ingress: u32,
    payload: &[u8],
    table: &mut [u8],
) -> u64 {
    known::<Flushed>(lender.lend(
        [("payload", payload)],
        [("table", table)],
        |[payload], [table]| raw::flush_vlan_only(ingress, payload, table),
    ))
}

pub fn flush_portion(
    lender: &mut impl Lend,
    ingress: u32,
    payload: &[u8],
    slot: u64,
    k: u64,
    table: &mut [u8],
) -> u64 {
    known::<Portioned>(lender.lend(
        [("payload", payload)],
        [("table", table)],
        |[payload], [table]| raw::flush_portion(ingress, payload, slot, k, table),
    ))
}

pub fn why(lender: &mut impl Lend, ingress: u32, payload: &[u8], slot: u64, table: &[u8]) -> u64 {
    known::<Why>(lender.lend(
        [("payload", payload), ("table", table)],
        [],
        |[payload, table], []| raw::why(ingress, payload, slot, table),
    ))
}

pub fn compact(lender: &mut impl Lend, settings: &Settings, frame: &[u8], out: &mut [u8]) -> u64 {
    known::<Compacted>(lender.lend(
        [("frame", frame)],
        [("output area", out)],
        |[frame], [out]| raw::compact(&numbers(settings), frame, out),
    ))
}

pub fn expand(
    lender: &mut impl Lend,
    settings: &Settings,
    outer_source: u64,
    tagged: u32,
    tag: u32,
    frame: &[u8],
    out: &mut [u8],
) -> u64 {
    let outer = raw::Outer {
        source: outer_source,
        tagged,
        tag,
    };
    known::<Expanded>(lender.lend(
        [("frame", frame)],
        [("output area", out)],
        |[frame], [out]| raw::expand(&numbers(settings), &outer, frame, out),
    ))
}

pub fn send(lender: &mut impl Lend, settings: &Settings, frame: &[u8], work: &mut [u8]) -> u64 {
    known::<Sent>(lender.lend(
        [("frame", frame)],
        [("working area", work)],
        |[frame], [work]| raw::send(&numbers(settings), frame, work),
    ))
}

pub fn lookup(lender: &mut impl Lend, kind: u32, label: u32, mac: u64, table: &[u8]) -> u64 {
    known::<Found>(lender.lend([("table", table)], [], |[table], []| {
        raw::lookup(kind, label, mac, table)
    }))
}

pub fn age(lender: &mut impl Lend, seconds: u16, table: &mut [u8]) -> u64 {
    known::<Aged>(lender.lend([], [("table", table)], |[], [table]| {
        raw::age(seconds, table)
    }))
}

pub fn spoilt(lender: &mut impl Lend, table: &[u8]) -> u64 {
    known::<Spoilt>(lender.lend([("table", table)], [], |[table], []| raw::spoilt(table)))
}

pub fn widen(lender: &mut impl Lend, old: &[u8], out: &mut [u8]) -> u64 {
    known::<Widened>(lender.lend(
        [("older table", old)],
        [("output area", out)],
        |[old], [out]| raw::widen(old, out),
    ))
}

pub fn report(lender: &mut impl Lend, table: &[u8], out: &mut [u8]) -> u64 {
    known::<Reported>(lender.lend(
        [("table", table)],
        [("output area", out)],
        |[table], [out]| raw::report(table, out),
    ))
}

pub fn hello_read(lender: &mut impl Lend, payload: &[u8], contents: &mut [u8]) -> u64 {
    known::<ReadHello>(lender.lend(
        [("payload", payload)],
        [("contents area", contents)],
        |[payload], [contents]| raw::hello_read(payload, contents),
    ))
}

pub fn hello_write(lender: &mut impl Lend, contents: &[u8], out: &mut [u8]) -> u64 {
    known::<WrittenHello>(lender.lend(
        [("contents area", contents)],
        [("output area", out)],
        |[contents], [out]| raw::hello_write(contents, out),
    ))
}

pub fn free_slot(lender: &mut impl Lend, table: &[u8]) -> u64 {
    known::<FreeSlot>(lender.lend([("table", table)], [], |[table], []| raw::free_slot(table)))
}

pub fn write_flush(
    lender: &mut impl Lend,
    nicknames: &[u8],
    vlans: &[u8],
    fine: &[u8],
    macs: &[u8],
    out: &mut [u8],
) -> u64 {
    known::<Written>(lender.lend(
        [
            ("nicknames", nicknames),
            ("VLAN blocks", vlans),
            ("fine-grained blocks", fine),
            ("MAC blocks", macs),
        ],
        [("output area", out)],
        |[nicknames, vlans, fine, macs], [out]| raw::write_flush(nicknames, vlans, fine, macs, out),
    ))
}
