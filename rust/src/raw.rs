//! The calls with any numbers, answered by the word of the C boundary as it is.
//!
//! Safe, because a slice is never null, also where it is empty, is as long as it says, and a `&mut`
//! slice shares no byte with another slice. [`decode`](crate::decode) reads a word.

#![allow(unsafe_code)]

use crate::{exports, Pair, Watch};

/// The settings of a port as the C boundary passes them: any numbers. Those out of range are
/// refusal 1. Only [`receive_port`] takes the last two.
#[derive(Clone, Copy, Debug, Default, PartialEq, Eq)]
pub struct Settings {
    /// The port's address, a number below 2^48, the first byte on the wire most significant.
    pub port: u64,
    /// The own inner address.
    pub inner: u64,
    /// The own nickname.
    pub nickname: u32,
    /// 1 Compact on, 0 off.
    pub compact: u32,
    /// The learning confidence.
    pub confidence: u32,
    /// The learning seconds, 0 for the default.
    pub seconds: u32,
    /// The R bit that marks frames of a station on two switches: 0 none, 1 the first, 2 the second.
    pub multihomed: u32,
    /// 0.
    pub smart: u32,
}

/// The part of a General frame that an expansion adds, as the C boundary passes it: any numbers.
#[derive(Clone, Copy, Debug, PartialEq, Eq)]
pub struct Outer {
    /// The outer source.
    pub source: u64,
    /// 1 with an outer tag, 0 without.
    pub tagged: u32,
    /// The number in the outer tag; not read without one.
    pub tag: u32,
}

/// What ingress puts around a native frame, as the C boundary passes it: any numbers.
#[derive(Clone, Copy, Debug, PartialEq, Eq)]
pub struct Encapsulation {
    /// The outer destination.
    pub outer_destination: u64,
    /// The outer source.
    pub outer_source: u64,
    /// The M bit of the header.
    pub m: u32,
    /// The hop count of the header.
    pub hop_count: u32,
    /// The egress nickname of the header.
    pub egress: u32,
    /// The ingress nickname of the header.
    pub ingress: u32,
}

/// Reads one Ethernet frame.
#[inline]
pub fn receive(settings: &Settings, frame: &[u8], table: &mut [u8], out: &mut [u8]) -> u64 {
    // SAFETY: three slices: none is null, each is as long as said, and the two that are lent for
    // writing overlap nothing, being `&mut`.
    unsafe {
        exports::shinglebar_receive(
            settings.port,
            settings.inner,
            settings.nickname,
            settings.compact,
            settings.confidence,
            settings.seconds,
            frame.as_ptr(),
            frame.len(),
            table.as_mut_ptr(),
            table.len(),
            out.as_mut_ptr(),
            out.len(),
        )
    }
}

/// Reads one Ethernet frame at a port with a map.
#[inline]
pub fn receive_port(
    settings: &Settings,
    map: &[u8],
    frame: &[u8],
    table: &mut [u8],
    out: &mut [u8],
) -> u64 {
    // SAFETY: four slices: none is null, each is as long as said, and the two that are lent for
    // writing overlap nothing, being `&mut`.
    unsafe {
        exports::shinglebar_receive_port(
            settings.port,
            settings.inner,
            settings.nickname,
            settings.compact,
            settings.confidence,
            settings.seconds,
            settings.multihomed,
            settings.smart,
            map.as_ptr(),
            map.len(),
            frame.as_ptr(),
            frame.len(),
            table.as_mut_ptr(),
            table.len(),
            out.as_mut_ptr(),
            out.len(),
        )
    }
}

/// Makes a General frame of a native one that came in at a port with a map.
#[inline]
pub fn ingress(
    settings: &Settings,
    map: &[u8],
    given: &Encapsulation,
    frame: &[u8],
    out: &mut [u8],
) -> u64 {
    // SAFETY: three slices: none is null, each is as long as said, and the one that is lent for
    // writing overlaps nothing, being `&mut`.
    unsafe {
        exports::shinglebar_ingress(
            settings.port,
            settings.inner,
            settings.nickname,
            settings.compact,
            settings.confidence,
            settings.seconds,
            map.as_ptr(),
            map.len(),
            given.outer_destination,
            given.outer_source,
            given.m,
            given.hop_count,
            given.egress,
            given.ingress,
            frame.as_ptr(),
            frame.len(),
            out.as_mut_ptr(),
            out.len(),
        )
    }
}

/// The bytes of a map.
#[inline]
pub fn map_bytes(map: &[Pair]) -> &[u8] {
    // SAFETY: a pair is its six bytes and nothing else (`repr(transparent)`), so the slice is so many
    // times six bytes, which live as long and are only read.
    unsafe { core::slice::from_raw_parts(map.as_ptr().cast(), core::mem::size_of_val(map)) }
}

/// Carries out the payload of an Address Flush.
#[inline]
pub fn flush(ingress: u32, payload: &[u8], table: &mut [u8]) -> u64 {
    // SAFETY: two slices: neither is null, each is as long as said, and the one that is lent for
    // writing overlaps nothing, being `&mut`.
    unsafe {
        exports::shinglebar_flush(
            ingress,
            payload.as_ptr(),
            payload.len(),
            table.as_mut_ptr(),
            table.len(),
        )
    }
}

/// Carries out the payload of an Address Flush as the VLAN-only model does.
#[inline]
pub fn flush_vlan_only(ingress: u32, payload: &[u8], table: &mut [u8]) -> u64 {
    // SAFETY: two slices: neither is null, each is as long as said, and the one that is lent for
    // writing overlaps nothing, being `&mut`.
    unsafe {
        exports::shinglebar_flush_vlan_only(
            ingress,
            payload.as_ptr(),
            payload.len(),
            table.as_mut_ptr(),
            table.len(),
        )
    }
}

/// Carries out a portion of a flush: at most `k` slots from the slot on.
#[inline]
pub fn flush_portion(ingress: u32, payload: &[u8], slot: u64, k: u64, table: &mut [u8]) -> u64 {
    // SAFETY: two slices: neither is null, each is as long as said, and the one that is lent for
    // writing overlaps nothing, being `&mut`.
    unsafe {
        exports::shinglebar_flush_portion(
            ingress,
            payload.as_ptr(),
            payload.len(),
            slot,
            k,
            table.as_mut_ptr(),
            table.len(),
        )
    }
}

/// Says why a flush clears the record of a slot, or leaves it.
#[inline]
pub fn why(ingress: u32, payload: &[u8], slot: u64, table: &[u8]) -> u64 {
    // SAFETY: two slices: neither is null, each is as long as said, and both are only read.
    unsafe {
        exports::shinglebar_why(
            ingress,
            payload.as_ptr(),
            payload.len(),
            slot,
            table.as_ptr(),
            table.len(),
        )
    }
}

/// Compacts a General frame for a far port.
#[inline]
pub fn compact(far: &Settings, frame: &[u8], out: &mut [u8]) -> u64 {
    // SAFETY: two slices: neither is null, each is as long as said, and the one that is lent for
    // writing overlaps nothing, being `&mut`.
    unsafe {
        exports::shinglebar_compact(
            far.port,
            far.inner,
            far.nickname,
            far.compact,
            far.confidence,
            far.seconds,
            frame.as_ptr(),
            frame.len(),
            out.as_mut_ptr(),
            out.len(),
        )
    }
}

/// Expands a Compact frame for a far port.
#[inline]
pub fn expand(far: &Settings, outer: &Outer, frame: &[u8], out: &mut [u8]) -> u64 {
    // SAFETY: two slices: neither is null, each is as long as said, and the one that is lent for
    // writing overlaps nothing, being `&mut`.
    unsafe {
        exports::shinglebar_expand(
            far.port,
            far.inner,
            far.nickname,
            far.compact,
            far.confidence,
            far.seconds,
            outer.source,
            outer.tagged,
            outer.tag,
            frame.as_ptr(),
            frame.len(),
            out.as_mut_ptr(),
            out.len(),
        )
    }
}

/// Chooses what to send to a far port.
#[inline]
pub fn send(far: &Settings, frame: &[u8], work: &mut [u8]) -> u64 {
    // SAFETY: two slices: neither is null, each is as long as said, and the one that is lent for
    // writing overlaps nothing, being `&mut`.
    unsafe {
        exports::shinglebar_send(
            far.port,
            far.inner,
            far.nickname,
            far.compact,
            far.confidence,
            far.seconds,
            frame.as_ptr(),
            frame.len(),
            work.as_mut_ptr(),
            work.len(),
        )
    }
}

/// Looks an address up. `kind` 0 is VLAN, 1 fine-grained; any other finds none.
#[inline]
pub fn lookup(kind: u32, label: u32, mac: u64, table: &[u8]) -> u64 {
    // SAFETY: a slice: not null, as long as said, and only read.
    unsafe { exports::shinglebar_lookup(kind, label, mac, table.as_ptr(), table.len()) }
}

/// Ages the table.
#[inline]
pub fn age(seconds: u16, table: &mut [u8]) -> u64 {
    // SAFETY: a slice: not null, as long as said, and lent for writing to this call alone.
    unsafe { exports::shinglebar_age(seconds, table.as_mut_ptr(), table.len()) }
}

/// Widens an older table.
#[inline]
pub fn widen(old: &[u8], out: &mut [u8]) -> u64 {
    // SAFETY: two slices: neither is null, each is as long as said, and the one that is lent for
    // writing overlaps nothing, being `&mut`.
    unsafe { exports::shinglebar_widen(old.as_ptr(), old.len(), out.as_mut_ptr(), out.len()) }
}

/// Writes the morning report of a table.
#[inline]
pub fn report(table: &[u8], out: &mut [u8]) -> u64 {
    // SAFETY: two slices: neither is null, each is as long as said, and the one that is lent for
    // writing overlaps nothing, being `&mut`.
    unsafe { exports::shinglebar_report(table.as_ptr(), table.len(), out.as_mut_ptr(), out.len()) }
}

/// Reads the payload of a Smart-Hello into its contents area.
#[inline]
pub fn hello_read(payload: &[u8], contents: &mut [u8]) -> u64 {
    // SAFETY: two slices: neither is null, each is as long as said, and the one that is lent for
    // writing overlaps nothing, being `&mut`.
    unsafe {
        exports::shinglebar_hello_read(
            payload.as_ptr(),
            payload.len(),
            contents.as_mut_ptr(),
            contents.len(),
        )
    }
}

/// Writes the payload of a Smart-Hello from a contents area.
#[inline]
pub fn hello_write(contents: &[u8], out: &mut [u8]) -> u64 {
    // SAFETY: two slices: neither is null, each is as long as said, and the one that is lent for
    // writing overlaps nothing, being `&mut`.
    unsafe {
        exports::shinglebar_hello_write(
            contents.as_ptr(),
            contents.len(),
            out.as_mut_ptr(),
            out.len(),
        )
    }
}

/// Names the lowest spoilt slot.
#[inline]
pub fn spoilt(table: &[u8]) -> u64 {
    // SAFETY: a slice: not null, as long as said, and only read.
    unsafe { exports::shinglebar_spoilt(table.as_ptr(), table.len()) }
}

/// Names the lowest free slot.
#[inline]
pub fn free_slot(table: &[u8]) -> u64 {
    // SAFETY: a slice: not null, as long as said, and only read.
    unsafe { exports::shinglebar_free_slot(table.as_ptr(), table.len()) }
}

/// Writes the payload of an Address Flush from four lists: nicknames 2 bytes each, VLAN blocks 2 + 2,
/// fine-grained blocks 4 + 4, MAC blocks 8 + 8, most significant byte first.
#[inline]
pub fn write_flush(
    nicknames: &[u8],
    vlans: &[u8],
    fine: &[u8],
    macs: &[u8],
    out: &mut [u8],
) -> u64 {
    // SAFETY: five slices: none is null, each is as long as said, and the one that is lent for
    // writing overlaps nothing, being `&mut`.
    unsafe {
        exports::shinglebar_write_flush(
            nicknames.as_ptr(),
            nicknames.len(),
            vlans.as_ptr(),
            vlans.len(),
            fine.as_ptr(),
            fine.len(),
            macs.as_ptr(),
            macs.len(),
            out.as_mut_ptr(),
            out.len(),
        )
    }
}

/// Resets a watch.
#[inline]
pub fn watch_reset(watch: &mut Watch, now: u32) -> u64 {
    // SAFETY: a watch that is lent for writing to this call alone.
    unsafe { exports::shinglebar_watch_reset(watch, now) }
}

/// Takes the time passed off a watch.
#[inline]
pub fn watch_tick(watch: &mut Watch, now: u32) -> u64 {
    // SAFETY: a watch that is lent for writing to this call alone.
    unsafe { exports::shinglebar_watch_tick(watch, now) }
}

/// Reports an event to a watch. `kind` is 0 to 3; any other is refusal 1.
#[inline]
pub fn watch_event(watch: &mut Watch, now: u32, kind: u32, time: u16) -> u64 {
    // SAFETY: a watch that is lent for writing to this call alone.
    unsafe { exports::shinglebar_watch_event(watch, now, kind, time) }
}

/// Chooses what to send to a far port, at a port with a watch.
#[inline]
pub fn send_watched(
    far: &Settings,
    watch: &mut Watch,
    now: u32,
    frame: &[u8],
    work: &mut [u8],
) -> u64 {
    // SAFETY: two slices: neither is null, each is as long as said; the working area and the watch,
    // which are lent for writing, overlap nothing, being `&mut`.
    unsafe {
        exports::shinglebar_send_watched(
            far.port,
            far.inner,
            far.nickname,
            far.compact,
            far.confidence,
            far.seconds,
            watch,
            now,
            frame.as_ptr(),
            frame.len(),
            work.as_mut_ptr(),
            work.len(),
        )
    }
}
