//! A second implementation of the calls, written from documents 01 and 02, sentence by sentence. The
//! sentence stands beside the code that follows it. Clarity goes before speed.
//!
//! Each call takes its areas as slices and returns the word of the C boundary. It is total: any
//! bytes and any numbers, never a panic.

mod answer;
mod convert;
mod flush;
mod frame;
mod hello;
mod homes;
mod ingress;
mod map;
mod portion;
mod receive;
mod record;
mod refusal;
mod report;
mod settings;
mod small;
mod table;
mod watch;
mod why;
mod write;

pub use convert::{compact, expand, send, WORKING_AREA};
pub use flush::flush;
pub use frame::{destination, front, is_control, read_compact, read_general, Fields, Front};
pub use hello::{hello_read, hello_write, Contents, Nickname, Parameters, SmartMac, Trees};
pub use homes::{homes_are_apart, widen};
pub use ingress::{ingress, Encapsulation};
pub use map::{CampusLabel, Map, PortVlan, PAIR};
pub use portion::flush_portion;
pub use receive::{receive, receive_port, receive_with};
pub use record::{read, write, Entry, Label, Record, OLD_RECORD, RECORD, SLOTS, TABLE};
pub use refusal::Refusal;
pub use report::{report, reported};
pub use settings::{Settings, DEFAULT_LIFE, OLD_LIFE};
pub use small::flush_vlan_only;
pub use table::{age, free_slot, lookup, spoilt};
pub use watch::{send_watched, watch_event, watch_reset, watch_tick, Watch};
pub use why::why;
pub use write::{write_flush, Block, Lists};

/// "Numbers are most significant byte first."
fn number(bytes: &[u8]) -> u64 {
    bytes
        .iter()
        .fold(0, |sum, &byte| (sum << 8) | u64::from(byte))
}

/// The six bytes of an address.
fn address_bytes(address: u64) -> [u8; 6] {
    let [_, _, bytes @ ..] = address.to_be_bytes();
    bytes
}

/// The group bit is the lowest bit of the first byte on the wire.
fn is_group(address: u64) -> bool {
    address & 0x0100_0000_0000 != 0
}

/// "0001 to FFBF", the nicknames that may stand in a setting, a header and a record.
fn is_nickname(nickname: u64) -> bool {
    (0x0001..=0xFFBF).contains(&nickname)
}
