//! Single levels of an entry, after `Bit` of wellen's src/signal/value.rs.

use crate::raw;
use crate::refusal::accepted;
use crate::{BitVecRef, Refusal, States};
use std::fmt::{self, Debug, Display, Formatter, Write};
use std::iter::{FusedIterator, Rev};
use std::ops::Range;

/// One level, by its code.
///
/// ```
/// use yoksimert::Bit;
///
/// assert_eq!((Bit::X.as_ascii(), u8::from(Bit::X)), ('x', 2));
/// assert_eq!((Bit::new(8), Bit::new(9)), (Some(Bit::DONT_CARE), None));
/// assert_eq!(format!("{} {:?}", Bit::DONT_CARE, Bit::Z), "- Bit(z)");
/// ```
#[derive(Clone, Copy, PartialEq, Eq, PartialOrd, Ord, Hash)]
pub struct Bit(u8);

/// The small letter or digit of each code.
const LETTERS: [u8; 9] = *b"01xzhuwl-";

impl Bit {
    /// `0`
    pub const ZERO: Self = Self(0);
    /// `1`
    pub const ONE: Self = Self(1);
    /// `x`, unknown
    pub const X: Self = Self(2);
    /// `z`, not driven
    pub const Z: Self = Self(3);
    /// `h`, weak one
    pub const H: Self = Self(4);
    /// `u`, uninitialised
    pub const U: Self = Self(5);
    /// `w`, weak unknown
    pub const W: Self = Self(6);
    /// `l`, weak zero
    pub const L: Self = Self(7);
    /// `-`
    pub const DONT_CARE: Self = Self(8);

    /// The level of a code; none above 8.
    #[must_use]
    #[inline]
    pub const fn new(code: u8) -> Option<Self> {
        if (code as usize) < LETTERS.len() {
            Some(Self(code))
        } else {
            None
        }
    }

    /// The small letter or digit.
    #[must_use]
    #[inline]
    pub const fn as_ascii(self) -> char {
        LETTERS[self.0 as usize] as char
    }
}

/// The code.
impl From<Bit> for u8 {
    #[inline]
    fn from(bit: Bit) -> Self {
        bit.0
    }
}

/// The code.
impl From<Bit> for u64 {
    #[inline]
    fn from(bit: Bit) -> Self {
        bit.0.into()
    }
}

/// As [`Bit::as_ascii`].
impl From<Bit> for char {
    #[inline]
    fn from(bit: Bit) -> Self {
        bit.as_ascii()
    }
}

/// As [`Bit::as_ascii`].
impl Display for Bit {
    fn fmt(&self, f: &mut Formatter<'_>) -> fmt::Result {
        f.write_char(self.as_ascii())
    }
}

impl Debug for Bit {
    fn fmt(&self, f: &mut Formatter<'_>) -> fmt::Result {
        write!(f, "Bit({self})")
    }
}

impl<'a> BitVecRef<'a> {
    /// A level by its number, from 0 for the last one of the string; none if there is no such level, or it has a code that is no level's,
    /// which no [`SignalWriter`](crate::SignalWriter) stores.
    ///
    /// ```
    /// use yoksimert::{Bit, SignalWriter};
    ///
    /// # fn main() -> Result<(), yoksimert::Refusal> {
    /// let mut writer = SignalWriter::new(3)?;
    /// writer.add_change(0, "x01")?;
    /// let signal = writer.finish();
    /// let levels = signal.get_entry(0)?.as_bit_vec().expect("a bit vector");
    /// assert_eq!([0, 1, 2, 3].map(|bit| levels.get_bit(bit)), [Some(Bit::ONE), Some(Bit::ZERO), Some(Bit::X), None]);
    /// assert!(levels.iter_msb_to_lsb()?.eq([Bit::X, Bit::ZERO, Bit::ONE]));
    /// # Ok(())
    /// # }
    /// ```
    #[must_use]
    #[inline]
    pub fn get_bit(&self, bit: u32) -> Option<Bit> {
        let (states, bytes) = self.read();
        picked(states, bytes, bit).filter(|_| bit < self.width())
    }

    /// The levels from the last of the string, bit 0, to the first.
    ///
    /// # Errors
    /// [`Refusal::BadCode`], which no record of a [`SignalWriter`](crate::SignalWriter) gives.
    pub fn iter_lsb_to_msb(&self) -> Result<Bits<'a>, Refusal> {
        let (states, bytes) = self.read();
        // Sets Two and Four have a level for each code that their bits can hold.
        if states == States::Nine {
            let entry = self.as_record();
            accepted(raw::compare(entry, entry).number)?;
        }
        Ok(Bits {
            states,
            bytes,
            bits: 0..self.width(),
        })
    }

    /// The levels in the order of the string.
    ///
    /// # Errors
    /// As [`BitVecRef::iter_lsb_to_msb`].
    pub fn iter_msb_to_lsb(&self) -> Result<Rev<Bits<'a>>, Refusal> {
        Ok(self.iter_lsb_to_msb()?.rev())
    }
}

/// A level of a set, by its number from the end of the bytes; none if they end before it or the code is no level's.
#[inline]
fn picked(states: States, bytes: &[u8], bit: u32) -> Option<Bit> {
    let (digit, mask) = match states {
        States::Two => (1, 0x1),
        States::Four => (2, 0x3),
        States::Nine => (4, 0xf),
    };
    let place = bit as usize * digit;
    let byte = bytes.iter().nth_back(place / 8)?;
    Bit::new(byte >> (place % 8) & mask)
}

/// The levels of an entry from bit 0 on; [`BitVecRef::iter_lsb_to_msb`] gives them.
#[derive(Clone)]
pub struct Bits<'a> {
    states: States,
    /// Every code in them is a level's.
    bytes: &'a [u8],
    bits: Range<u32>,
}

impl Iterator for Bits<'_> {
    type Item = Bit;

    #[inline]
    fn next(&mut self) -> Option<Bit> {
        picked(self.states, self.bytes, self.bits.next()?)
    }

    #[inline]
    fn size_hint(&self) -> (usize, Option<usize>) {
        self.bits.size_hint()
    }

    #[inline]
    fn nth(&mut self, n: usize) -> Option<Bit> {
        picked(self.states, self.bytes, self.bits.nth(n)?)
    }
}

impl DoubleEndedIterator for Bits<'_> {
    #[inline]
    fn next_back(&mut self) -> Option<Bit> {
        picked(self.states, self.bytes, self.bits.next_back()?)
    }

    #[inline]
    fn nth_back(&mut self, n: usize) -> Option<Bit> {
        picked(self.states, self.bytes, self.bits.nth_back(n)?)
    }
}

impl ExactSizeIterator for Bits<'_> {}

impl FusedIterator for Bits<'_> {}

/// The levels that are left.
impl Debug for Bits<'_> {
    fn fmt(&self, f: &mut Formatter<'_>) -> fmt::Result {
        f.debug_list().entries(self.clone()).finish()
    }
}
