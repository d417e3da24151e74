//! The refusal numbers.

/// "Numbers a caller can get", in the words of documents 01 and 02.
#[derive(Clone, Copy, Debug, PartialEq, Eq)]
#[repr(u8)]
pub enum Refusal {
    /// settings outside their ranges
    Settings = 1,
    /// table length 0, not a multiple of 15, or over 61,440
    TableLength = 2,
    /// frame (or expanded result) outside 14 to 9,216 bytes
    FrameLength = 3,
    /// 22F3 not at its place
    NotTrill = 4,
    /// destination in front not for this port
    NotForThisPort = 5,
    /// the frame ends inside a field it needs, or content under 2 bytes
    Cut = 6,
    /// V is not 0
    Version = 7,
    /// Hop Count 0
    HopCount = 8,
    /// a nickname outside 0001 to FFBF, or ingress nickname our own
    Nickname = 9,
    /// label Ethertype or VLAN number not allowed
    Label = 10,
    /// inner source is a group address
    GroupSource = 11,
    /// M and the General destination disagree
    Multicast = 12,
    /// inner destination :40 to :4F, content not 8946
    ReservedDestination = 13,
    /// channel: version or ERR not 0, or destination neither own inner address nor
    /// 01-80-C2-00-00-42
    Channel = 14,
    /// flush payload corrupt
    Payload = 15,
    /// output area shorter than the result
    OutputLength = 16,
    /// frame may not be compacted
    NotCompactable = 17,
    /// a General frame given where Compact is required
    General = 18,
    /// k is 0, or the slot number is n or more (document 02)
    Portion = 24,
    /// lists that cannot be written as a flush (document 02, 2026-03)
    Lists = 23,
    /// a Smart-Hello or its contents corrupt, or a number or list that cannot be written (document 02, 2026-13)
    Hello = 25,
    /// Smart-Parameters missing
    ParametersMissing = 26,
    /// map has a VLAN or label twice, a VLAN outside 1 to FFE or a label over FFFFFF
    Map = 21,
    /// no pair found
    NoPair = 22,
}
