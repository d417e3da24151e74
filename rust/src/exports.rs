//! The exports of the archive, as include/shinglebar.h declares them.
//!
//! [`raw`](crate::raw) is the safe way to call them. They are public for callers that need the
//! functions themselves, such as the benchmark.
//!
//! # Safety
//!
//! A pointer is not null, also at length 0; a length does not exceed the memory behind its pointer;
//! the areas of one call do not overlap, and those that a call may write are lent to it alone.

#![allow(missing_docs)]

use crate::Watch;

extern "C" {
    pub fn shinglebar_receive(
        port: u64,
        inner: u64,
        nickname: u32,
        compact: u32,
        confidence: u32,
        seconds: u32,
        frame: *const u8,
        frame_len: usize,
        table: *mut u8,
        table_len: usize,
        out: *mut u8,
        out_len: usize,
    ) -> u64;

    pub fn shinglebar_receive_port(
        port: u64,
        inner: u64,
        nickname: u32,
        compact: u32,
        confidence: u32,
        seconds: u32,
        multihomed: u32,
        smart: u32,
        map: *const u8,
        map_len: usize,
        frame: *const u8,
        frame_len: usize,
        table: *mut u8,
        table_len: usize,
        out: *mut u8,
        out_len: usize,
    ) -> u64;

    pub fn shinglebar_ingress(
        port: u64,
        inner: u64,
        nickname: u32,
        compact: u32,
        confidence: u32,
        seconds: u32,
        map: *const u8,
        map_len: usize,
        outer_destination: u64,
        outer_source: u64,
        m: u32,
        hop_count: u32,
        egress: u32,
        ingress: u32,
        frame: *const u8,
        frame_len: usize,
        out: *mut u8,
        out_len: usize,
    ) -> u64;

    pub fn shinglebar_flush(
        ingress: u32,
        payload: *const u8,
        payload_len: usize,
        table: *mut u8,
        table_len: usize,
    ) -> u64;

    pub fn shinglebar_flush_vlan_only(
        ingress: u32,
        payload: *const u8,
        payload_len: usize,
        table: *mut u8,
        table_len: usize,
    ) -> u64;

    pub fn shinglebar_flush_portion(
        ingress: u32,
        payload: *const u8,
        payload_len: usize,
        slot: u64,
        k: u64,
        table: *mut u8,
        table_len: usize,
    ) -> u64;

    pub fn shinglebar_why(
        ingress: u32,
        payload: *const u8,
        payload_len: usize,
        slot: u64,
        table: *const u8,
        table_len: usize,
    ) -> u64;

    pub fn shinglebar_compact(
        port: u64,
        inner: u64,
        nickname: u32,
        compact: u32,
        confidence: u32,
        seconds: u32,
        frame: *const u8,
        frame_len: usize,
        out: *mut u8,
        out_len: usize,
    ) -> u64;

    pub fn shinglebar_expand(
        port: u64,
        inner: u64,
        nickname: u32,
        compact: u32,
        confidence: u32,
        seconds: u32,
        outer_source: u64,
        tagged: u32,
        tag: u32,
        frame: *const u8,
        frame_len: usize,
        out: *mut u8,
        out_len: usize,
    ) -> u64;

    pub fn shinglebar_send(
        port: u64,
        inner: u64,
        nickname: u32,
        compact: u32,
        confidence: u32,
        seconds: u32,
        frame: *const u8,
        frame_len: usize,
        work: *mut u8,
        work_len: usize,
    ) -> u64;

    pub fn shinglebar_lookup(
        kind: u32,
        label: u32,
        mac: u64,
        table: *const u8,
        table_len: usize,
    ) -> u64;

    pub fn shinglebar_age(seconds: u16, table: *mut u8, table_len: usize) -> u64;

    pub fn shinglebar_spoilt(table: *const u8, table_len: usize) -> u64;

    /// The lowest free slot, and the number of records unpacked.
    pub fn shinglebar_free_slot(table: *const u8, table_len: usize) -> u64;

    pub fn shinglebar_widen(old: *const u8, old_len: usize, out: *mut u8, out_len: usize) -> u64;

    pub fn shinglebar_report(
        table: *const u8,
        table_len: usize,
        out: *mut u8,
        out_len: usize,
    ) -> u64;

    pub fn shinglebar_hello_read(
        payload: *const u8,
        payload_len: usize,
        contents: *mut u8,
        contents_len: usize,
    ) -> u64;

    pub fn shinglebar_hello_write(
        contents: *const u8,
        contents_len: usize,
        out: *mut u8,
        out_len: usize,
    ) -> u64;

    pub fn shinglebar_write_flush(
        nicknames: *const u8,
        nicknames_len: usize,
        vlans: *const u8,
        vlans_len: usize,
        fine: *const u8,
        fine_len: usize,
        macs: *const u8,
        macs_len: usize,
        out: *mut u8,
        out_len: usize,
    ) -> u64;

    pub fn shinglebar_watch_reset(watch: *mut Watch, now: u32) -> u64;

    pub fn shinglebar_watch_tick(watch: *mut Watch, now: u32) -> u64;

    pub fn shinglebar_watch_event(watch: *mut Watch, now: u32, kind: u32, time: u16) -> u64;

    pub fn shinglebar_send_watched(
        port: u64,
        inner: u64,
        nickname: u32,
        compact: u32,
        confidence: u32,
        seconds: u32,
        watch: *mut Watch,
        now: u32,
        frame: *const u8,
        frame_len: usize,
        work: *mut u8,
        work_len: usize,
    ) -> u64;
}
