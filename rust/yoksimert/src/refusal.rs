use std::error::Error;
use std::fmt::{self, Display, Formatter};

/// The refusals by their numbers in documents 01 and 02, rising.
macro_rules! refusals {
    ($($number:literal $name:ident $reason:literal)*) => {
        /// Why a call was refused. A refused call alters nothing.
        ///
        /// ```
        /// use yoksimert::{Refusal, SignalWriter};
        ///
        /// let refusal = SignalWriter::new(4_097).err();
        /// assert_eq!(refusal, Some(Refusal::WidthTooLarge));
        /// assert_eq!(Refusal::WidthTooLarge.number(), 1);
        /// assert_eq!(Refusal::WidthTooLarge.to_string(), "the width is above 4,096 (refusal 1)");
        /// ```
        #[derive(Clone, Copy, PartialEq, Eq, PartialOrd, Ord, Hash, Debug)]
        #[non_exhaustive]
        pub enum Refusal {
            $(#[doc = concat!(stringify!($number), ": ", $reason)] $name = $number,)*
            /// 200, of this crate alone: memory was short
            OutOfMemory = 200,
            /// 201, of this crate alone: the archive answered what this crate does not know, so it is of another version
            UnknownAnswer = 201,
        }

        impl Refusal {
            /// Every refusal of the documents, by its number.
            pub const ALL: &'static [Self] = &[$(Self::$name,)*];

            /// The refusal of a number that a call of [`raw`](crate::raw) answers; none for 0, an accepted call, and for any number that
            /// is no refusal's.
            #[must_use]
            #[inline]
            pub fn from_number(number: u32) -> Option<Self> {
                match number {
                    $($number => Some(Self::$name),)*
                    _ => None,
                }
            }

            /// What is wrong.
            #[must_use]
            pub fn reason(self) -> &'static str {
                match self {
                    $(Self::$name => $reason,)*
                    Self::OutOfMemory => "memory is short",
                    Self::UnknownAnswer => "the archive answered what this crate does not know: it is of another version",
                }
            }
        }
    };
}

refusals! {
    1 WidthTooLarge "the width is above 4,096"
    2 BadRecord "not a record: its width is not 1 to 4,096, it has more than 1,048,576 entries, or its bytes or time indices do not fit its count"
    3 WrongKind "the record is of another kind than the value or the call"
    4 WrongLength "the string has not one character for each wire, or, for an event, more than one"
    5 ForeignCharacter "a character is none of 0 1 x z h u w l -"
    6 IndexBelowLast "the time index is below the last one kept"
    7 NoRoom "no room: the record has 1,048,576 entries, or the slice is too short"
    8 NoSuchEntry "the record has no such entry"
    9 BadMark "an entry's mark is no set's, or above the record's largest set"
    10 BadCode "an entry has a code that is no level's"
    11 IndexFalls "a time index is below the one before it"
    12 BadRange "the piece's msb is below its lsb or above 4,095"
    13 DerivationFull "the derivation has 8 inputs, 64 pieces or 4,096 bits, and the piece would exceed that"
    14 BadDerivation "the derivation has no piece, does not fit the records it is given, or breaks a limit"
    15 LateInput "an input is empty, or does not start at time index 0"
    16 WrongWidth "the width is above 64, or, for packed decimal, not a multiple of 4"
    17 NotBinary "a level is neither 0 nor 1"
    18 NotDecimal "a digit of packed decimal is above 9"
}

impl Refusal {
    /// The number in documents 01 and 02; from 200 on, this crate's own.
    #[must_use]
    pub fn number(self) -> u8 {
        self as u8
    }
}

impl Display for Refusal {
    fn fmt(&self, f: &mut Formatter<'_>) -> fmt::Result {
        write!(f, "{} (refusal {})", self.reason(), self.number())
    }
}

impl Error for Refusal {}

/// 0 is an accepted call.
#[inline]
pub(crate) fn accepted(number: u32) -> Result<(), Refusal> {
    match number {
        0 => Ok(()),
        _ => Err(Refusal::from_number(number).unwrap_or(Refusal::UnknownAnswer)),
    }
}
