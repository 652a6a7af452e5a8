//! The numbers that are given: `enum gcf_number` of `include/gcf.h`, as an enum with a variant each.

use crate::{raw, WORDS_MOST};

/// Makes the enum, its numbers and the way back from one table.
macro_rules! numbers {
    ($($(#[$words:meta])* $name:ident = $number:literal,)*) => {
        /// Why something is refused, or what is wrong with a response. The manual's table "The numbers" says what to do about each.
        #[derive(Clone, Copy, Debug, PartialEq, Eq, Hash)]
        pub enum Number {
            $($(#[$words])* $name,)*
            /// A number that this crate does not know: the archive is another version's.
            Other(u8),
        }

        impl Number {
            /// The number itself, as the C functions give it.
            pub const fn number(self) -> u8 {
                match self {
                    $(Number::$name => $number,)*
                    Number::Other(number) => number,
                }
            }

            /// What a number means; none for 0, which refuses nothing.
            pub const fn of(number: u8) -> Option<Number> {
                match number {
                    0 => None,
                    $($number => Some(Number::$name),)*
                    _ => Some(Number::Other(number)),
                }
            }
        }
    };
}

numbers! {
    /// The sheet has under 4 bytes, or under 4 + 8n + 4p.
    SheetShort = 1,
    /// The sheet has more than 63 profiles.
    ProfilesMany = 2,
    /// A profile's number is 0 or listed before, its third byte is over 1 or its last is not 0.
    ProfileBad = 3,
    /// A feature number is 0, or not above the one before.
    OrderBad = 4,
    /// A reserved bit of a feature's flags is not 0.
    FlagsBad = 5,
    /// A body length is no multiple of 4.
    LengthBad = 6,
    /// A body offset is not the end of the body before.
    OffsetBad = 7,
    /// The sheet does not end where the last body ends.
    SheetLong = 8,
    /// The command has neither 10 nor 12 bytes.
    CommandLength = 9,
    /// The command's first byte is not 46h.
    OpcodeOther = 10,
    /// RT 3 is reserved.
    RtReserved = 11,
    /// The response buffer is too short.
    BufferShort = 12,
    /// A reading with RT over 2.
    ReadingRtBad = 13,
    /// Under 8 or over 65,534 bytes were received.
    ReceivedBad = 14,
    /// Data Length is under 4 or no multiple of 4.
    StatedBad = 15,
    /// More bytes were received than Data Length + 4, or, in a sweep, than the most.
    ReceivedMore = 16,
    /// An Additional Length is no multiple of 4.
    AdditionalBad = 17,
    /// A feature number is below the start or not above the one before, or another than the one asked for.
    FeatureBad = 18,
    /// A feature that is not current came for RT 1.
    NotCurrent = 19,
    /// A descriptor ends beyond Data Length + 4.
    EndsBeyond = 20,
    /// A sweep with RT over 1.
    SweepRtBad = 21,
    /// A sweep with an allocation length under 8.
    AllocationShort = 22,
    /// A cut response has no whole descriptor.
    NoneWhole = 23,
    /// There is no room for the collected descriptors.
    CollectedFull = 24,
    /// There is no room for another start.
    StartsFull = 25,
    /// The sweep had ended.
    SweepEnded = 26,
    /// The response is cut behind a whole FFFFh.
    CutAtLast = 27,
    /// A cut response has fewer bytes than the most.
    CutShort = 28,
    /// A response that is to be checked is cut.
    ResponseCut = 29,
    /// Feature 0000h or 0001h is missing.
    CoreMissing = 30,
    /// A body has not the length that it must have.
    BodyLengthBad = 31,
    /// One of 0000h to 0003h is not both Persistent and Current.
    FlagsNotBoth = 32,
    /// A reserved flag bit is not 0.
    FlagsReserved = 33,
    /// Persistent without Current.
    PersistentAlone = 34,
    /// A feature of the medium is Persistent, and 0003h is reported.
    PersistentBarred = 35,
    /// A reserved body bit or a pad byte is not 0.
    BitsReserved = 36,
    /// SAO is 0 and the cue sheet length is not.
    CueLength = 37,
    /// Profile number 0 is listed.
    ProfileZero = 39,
    /// There is no table for the profile.
    NoTable = 40,
    /// A captured response that no sheet gives back.
    NotOwn = 41,
    /// The buffer for the sheet is too short.
    SheetBufferShort = 42,
    /// A feature of a sheet is Persistent and not Current.
    PersistentUncurrent = 44,
    /// The Current Profile is not the one that the sweep began with.
    ProfileChanged = 45,
    /// Sense data that has not 18 bytes.
    SenseLength = 46,
    /// Sense data with another response code than 70h.
    SenseCode = 47,
    /// Sense data that the box does not write.
    SenseOther = 48,
    /// The buffer for a mended copy is shorter than the response.
    CopyShort = 49,
    /// The list of changes is too short.
    ChangesShort = 50,
    /// A list of a medium's features or profiles does not ascend, or has a repeat.
    ListOrder = 51,
    /// A listed feature or profile is not in the sheet.
    SheetLacks = 52,
    /// The buffer for the loaded sheet is too short.
    LoadedShort = 53,
    /// Sense data is asked for a number that no command gives.
    NotGiven = 54,
    /// The buffer for sense data has under 18 bytes.
    SenseBufferShort = 55,
}

/// Makes an enum of what a struct of further results tells by a number, and the way back from the number.
macro_rules! told_by_number {
    ($(#[$what:meta])* $name:ident { $($(#[$words:meta])* $number:literal => $said:ident,)* }) => {
        $(#[$what])*
        #[derive(Clone, Copy, Debug, PartialEq, Eq, Hash)]
        pub enum $name {
            $($(#[$words])* $said = $number,)*
        }

        impl $name {
            /// What a number tells; none for any other.
            pub(crate) const fn of(number: u64) -> Option<$name> {
                match number {
                    $($number => Some($name::$said),)*
                    _ => None,
                }
            }
        }
    };
}
pub(crate) use told_by_number;

/// The sentence of a number.
#[derive(Clone, Copy)]
pub struct Words {
    text: [u8; WORDS_MOST],
    count: usize,
}

impl Words {
    /// As text; empty for a number that is not given.
    pub fn as_str(&self) -> &str {
        core::str::from_utf8(&self.text[..self.count]).unwrap_or("")
    }
}

impl Number {
    /// What it means, in the words of the programs: `gcf_words`.
    ///
    /// ```
    /// assert_eq!(gcf::Number::RtReserved.words().as_str(), "RT 3 is reserved");
    /// assert_eq!(gcf::Number::Other(200).words().as_str(), "");
    /// ```
    pub fn words(self) -> Words {
        let mut text = [0; WORDS_MOST];
        let count = raw::words(self.number(), &mut text);
        Words { text, count }
    }
}

/// The number and its sentence.
///
/// ```
/// assert_eq!(gcf::Number::RtReserved.to_string(), "11: RT 3 is reserved");
/// ```
impl core::fmt::Display for Number {
    fn fmt(&self, to: &mut core::fmt::Formatter<'_>) -> core::fmt::Result {
        write!(to, "{}: {}", self.number(), self.words().as_str())
    }
}

#[cfg(feature = "std")]
impl std::error::Error for Number {}
