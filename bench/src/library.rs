//! The library's calls: the functions of the archive themselves, which the package in rust/ declares
//! and links, and their types.
//!
//! A declaration that no row uses asks nothing of the archive.

pub use shinglebar::exports::{
    shinglebar_age, shinglebar_compact, shinglebar_expand, shinglebar_flush,
    shinglebar_flush_portion, shinglebar_flush_vlan_only, shinglebar_free_slot,
    shinglebar_hello_read, shinglebar_hello_write, shinglebar_ingress, shinglebar_lookup,
    shinglebar_receive, shinglebar_receive_port, shinglebar_report, shinglebar_send,
    shinglebar_spoilt, shinglebar_why, shinglebar_widen, shinglebar_write_flush,
};

pub type Lookup = unsafe extern "C" fn(
    kind: u32,
    label: u32,
    mac: u64,
    table: *const u8,
    table_len: usize,
) -> u64;

pub type Age = unsafe extern "C" fn(seconds: u16, table: *mut u8, table_len: usize) -> u64;

/// Of spoilt and free slot.
pub type Spoilt = unsafe extern "C" fn(table: *const u8, table_len: usize) -> u64;

pub type Flush = unsafe extern "C" fn(
    ingress: u32,
    payload: *const u8,
    payload_len: usize,
    table: *mut u8,
    table_len: usize,
) -> u64;

pub type Portion = unsafe extern "C" fn(
    ingress: u32,
    payload: *const u8,
    payload_len: usize,
    slot: u64,
    k: u64,
    table: *mut u8,
    table_len: usize,
) -> u64;

pub type Why = unsafe extern "C" fn(
    ingress: u32,
    payload: *const u8,
    payload_len: usize,
    slot: u64,
    table: *const u8,
    table_len: usize,
) -> u64;

pub type Receive = unsafe extern "C" fn(
    port: u64,
    inner: u64,
    nickname: u32,
    compact: u32,
    confidence: u32,
    seconds: u32,
    frame: *const u8,
    frame_len: usize,
    table: *mut u8,
    table_len: usize,
    out: *mut u8,
    out_len: usize,
) -> u64;

/// Of widen, report, hello_read and hello_write.
pub type Widen =
    unsafe extern "C" fn(old: *const u8, old_len: usize, out: *mut u8, out_len: usize) -> u64;

pub type ReceivePort = unsafe extern "C" fn(
    port: u64,
    inner: u64,
    nickname: u32,
    compact: u32,
    confidence: u32,
    seconds: u32,
    multihomed: u32,
    smart: u32,
    map: *const u8,
    map_len: usize,
    frame: *const u8,
    frame_len: usize,
    table: *mut u8,
    table_len: usize,
    out: *mut u8,
    out_len: usize,
) -> u64;

pub type Ingress = unsafe extern "C" fn(
    port: u64,
    inner: u64,
    nickname: u32,
    compact: u32,
    confidence: u32,
    seconds: u32,
    map: *const u8,
    map_len: usize,
    outer_destination: u64,
    outer_source: u64,
    m: u32,
    hop_count: u32,
    egress: u32,
    ingress: u32,
    frame: *const u8,
    frame_len: usize,
    out: *mut u8,
    out_len: usize,
) -> u64;

/// Of compact and send.
pub type Compact = unsafe extern "C" fn(
    port: u64,
    inner: u64,
    nickname: u32,
    compact: u32,
    confidence: u32,
    seconds: u32,
    frame: *const u8,
    frame_len: usize,
    out: *mut u8,
    out_len: usize,
) -> u64;

pub type Expand = unsafe extern "C" fn(
    port: u64,
    inner: u64,
    nickname: u32,
    compact: u32,
    confidence: u32,
    seconds: u32,
    outer_source: u64,
    tagged: u32,
    tag: u32,
    frame: *const u8,
    frame_len: usize,
    out: *mut u8,
    out_len: usize,
) -> u64;

pub type WriteFlush = unsafe extern "C" fn(
    nicknames: *const u8,
    nicknames_len: usize,
    vlans: *const u8,
    vlans_len: usize,
    fine: *const u8,
    fine_len: usize,
    macs: *const u8,
    macs_len: usize,
    out: *mut u8,
    out_len: usize,
) -> u64;
