//! Hand-written versions of the calls, with the signatures of the C boundary: plain loops over the
//! bytes with wide loads, early exits, and for a flush bit sets, lists of slots and sorted records, all
//! on the stack.
//!
//! # Safety
//!
//! As for the library: a pointer is not null, a length does not exceed the memory behind it, and the
//! areas of one call do not overlap.

#![allow(clippy::missing_safety_doc, clippy::too_many_arguments)]

mod convert;
mod flush;
mod frame;
mod hello;
mod hello_write;
mod homes;
mod ingress;
mod map;
mod receive;
mod record;
mod refusal;
mod report;
mod settings;
mod table;
mod watch;
mod write;

pub use convert::{compact, expand, send};
pub use flush::{flush, flush_portion, flush_vlan_only, why};
pub use hello::hello_read;
pub use hello_write::hello_write;
pub use homes::widen;
pub use ingress::ingress;
pub use receive::{receive, receive_port};
pub use report::report;
pub use table::{age, free_slot, lookup, spoilt};
pub use watch::{send_watched, watch_event};
pub use write::write_flush;
