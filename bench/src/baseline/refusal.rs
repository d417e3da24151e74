//! The refusal numbers.

/// settings outside their ranges
pub const SETTINGS: u64 = 1;
/// table length 0, not a multiple of 15, or over 61,440
pub const TABLE_LENGTH: u64 = 2;
/// frame (or expanded result) outside 14 to 9,216 bytes
pub const FRAME_LENGTH: u64 = 3;
/// 22F3 not at its place
pub const NOT_TRILL: u64 = 4;
/// destination in front not for this port
pub const NOT_FOR_THIS_PORT: u64 = 5;
/// the frame ends inside a field it needs, or content under 2 bytes
pub const CUT: u64 = 6;
/// V is not 0
pub const VERSION: u64 = 7;
/// Hop Count 0
pub const HOP_COUNT: u64 = 8;
/// a nickname outside 0001 to FFBF, or ingress nickname our own
pub const NICKNAME: u64 = 9;
/// label Ethertype or VLAN number not allowed
pub const LABEL: u64 = 10;
/// inner source is a group address
pub const GROUP_SOURCE: u64 = 11;
/// M and the General destination disagree
pub const MULTICAST: u64 = 12;
/// inner destination :40 to :4F, content not 8946
pub const RESERVED_DESTINATION: u64 = 13;
/// channel: version or ERR not 0, or destination neither own inner address nor 01-80-C2-00-00-42
pub const CHANNEL: u64 = 14;
/// flush payload corrupt
pub const PAYLOAD: u64 = 15;
/// output area shorter than the result
pub const OUTPUT_LENGTH: u64 = 16;
/// frame may not be compacted
pub const NOT_COMPACTABLE: u64 = 17;
/// a General frame given where Compact is required
pub const GENERAL: u64 = 18;
/// map has a VLAN or label twice, a VLAN outside 1 to FFE or a label over FFFFFF
pub const MAP: u64 = 21;
/// no pair found
pub const NO_PAIR: u64 = 22;
/// k is 0, or the slot number is n or more
pub const PORTION: u64 = 24;
/// Smart-Hello or its contents corrupt, or a number or list that cannot be written
pub const HELLO: u64 = 25;
/// Smart-Parameters missing
pub const PARAMETERS_MISSING: u64 = 26;
