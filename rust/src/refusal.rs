//! The refusals.

use core::error::Error;
use core::fmt;

macro_rules! refusals {
    ($($name:ident = $number:literal, $words:literal;)*) => {
        /// Why a call refuses. A refused call has changed nothing.
        ///
        /// The numbers and words are those of the table of refusals in document 01, and of document 02.
        ///
        /// ```
        /// use shinglebar::Refusal;
        ///
        /// assert_eq!(Refusal::NotForThisPort.number(), 5);
        /// assert_eq!(
        ///     Refusal::NotForThisPort.to_string(),
        ///     "destination in front not for this port"
        /// );
        /// ```
        #[derive(Clone, Copy, Debug, PartialEq, Eq, Hash)]
        #[repr(u8)]
        pub enum Refusal {
            $(#[doc = $words] $name = $number,)*
        }

        impl Refusal {
            /// Every refusal, by number.
            pub const ALL: &'static [Refusal] = &[$(Refusal::$name),*];

            /// What the table says of it.
            pub const fn words(self) -> &'static str {
                match self {
                    $(Refusal::$name => $words,)*
                }
            }
        }
    };
}

refusals! {
    Settings = 1, "settings outside their ranges";
    TableLength = 2, "table length 0, not a multiple of 15, or over 61,440";
    FrameLength = 3, "frame (or expanded result) outside 14 to 9,216 bytes";
    NotTrill = 4, "22F3 not at its place";
    NotForThisPort = 5, "destination in front not for this port";
    Cut = 6, "the frame ends inside a field it needs, or content under 2 bytes";
    Version = 7, "V is not 0";
    HopCount = 8, "Hop Count 0";
    Nickname = 9, "a nickname outside 0001 to FFBF, or ingress nickname our own";
    Label = 10, "label Ethertype or VLAN number not allowed";
    GroupSource = 11, "inner source is a group address";
    Multicast = 12, "M and the General destination disagree";
    ReservedDestination = 13, "inner destination :40 to :4F, content not 8946";
    Channel = 14, "channel: version or ERR not 0, or destination neither own inner address nor 01-80-C2-00-00-42";
    Payload = 15, "flush payload corrupt";
    OutputLength = 16, "output area shorter than the result";
    NotCompactable = 17, "frame may not be compacted";
    General = 18, "a General frame given where Compact is required";
    Map = 21, "map: a VLAN or label twice, a VLAN outside 1 to FFE, a label over FFFFFF, or a length that is no multiple of 6";
    NoPair = 22, "no pair found in the map";
    Lists = 23, "lists that cannot be written as a flush";
    Portion = 24, "k is 0, or the slot number is n or more";
    Hello = 25, "Smart-Hello or its contents corrupt, or a number or list that cannot be written";
    ParametersMissing = 26, "Smart-Parameters missing";
}

impl Refusal {
    /// Its number.
    pub const fn number(self) -> u8 {
        self as u8
    }

    /// The refusal with a number.
    pub fn from_number(number: u64) -> Option<Refusal> {
        let with_number = |refusal: &&Refusal| u64::from(refusal.number()) == number;
        Refusal::ALL.iter().find(with_number).copied()
    }
}

impl fmt::Display for Refusal {
    fn fmt(&self, to: &mut fmt::Formatter) -> fmt::Result {
        to.write_str(self.words())
    }
}

impl Error for Refusal {}
