//! Entries read as numbers.

use crate::refusal::accepted;
use crate::signal::entry_number;
use crate::{BitVecRef, Refusal, Signal, raw};

impl Signal {
    /// The levels of an entry as a binary number, the first the highest. What counts is the levels: an entry of a larger set that has
    /// `0` and `1` alone is a number.
    ///
    /// ```
    /// use yoksimert::{Refusal, SignalWriter};
    ///
    /// # fn main() -> Result<(), Refusal> {
    /// let mut pulses = SignalWriter::new(4)?;
    /// pulses.add_change(0, "1010")?;
    /// pulses.add_change(1, "10x0")?;
    /// let pulses = pulses.finish();
    /// assert_eq!(pulses.get_unsigned(0), Ok(10));
    /// assert_eq!(pulses.get_unsigned(1), Err(Refusal::NotBinary));
    /// # Ok(())
    /// # }
    /// ```
    ///
    /// # Errors
    /// [`Refusal::WrongKind`] for a real or an event, [`Refusal::NoSuchEntry`], [`Refusal::WrongWidth`] above 64 levels, and
    /// [`Refusal::NotBinary`] for a level other than `0` and `1`. [`Refusal::BadRecord`], [`Refusal::BadMark`] and [`Refusal::BadCode`]
    /// for a record that no writer made.
    #[inline]
    pub fn get_unsigned(&self, entry: usize) -> Result<u64, Refusal> {
        let answer = raw::unsigned(self.description, &self.bytes, 0, entry_number(entry));
        accepted(answer.number)?;
        Ok(answer.value)
    }

    /// The levels of an entry in two's complement: where the first is `1`, the number is below 0.
    ///
    /// ```
    /// use yoksimert::SignalWriter;
    ///
    /// # fn main() -> Result<(), yoksimert::Refusal> {
    /// let mut slope = SignalWriter::new(4)?;
    /// slope.add_change(0, "0110")?;
    /// slope.add_change(1, "1010")?;
    /// let slope = slope.finish();
    /// assert_eq!((slope.get_signed(0), slope.get_signed(1)), (Ok(6), Ok(-6)));
    /// # Ok(())
    /// # }
    /// ```
    ///
    /// # Errors
    /// As [`Signal::get_unsigned`].
    #[inline]
    pub fn get_signed(&self, entry: usize) -> Result<i64, Refusal> {
        let answer = raw::signed(self.description, &self.bytes, 0, entry_number(entry));
        accepted(answer.number)?;
        Ok(answer.value)
    }

    /// The levels of an entry in packed decimal: each four are a digit, the first the highest.
    ///
    /// ```
    /// use yoksimert::{Refusal, SignalWriter};
    ///
    /// # fn main() -> Result<(), Refusal> {
    /// let mut fare = SignalWriter::new(12)?;
    /// fare.add_change(0, "001101000101")?;
    /// fare.add_change(1, "001101001010")?;
    /// let fare = fare.finish();
    /// assert_eq!(fare.get_decimal(0), Ok(345));
    /// assert_eq!(fare.get_decimal(1), Err(Refusal::NotDecimal));
    /// # Ok(())
    /// # }
    /// ```
    ///
    /// # Errors
    /// As [`Signal::get_unsigned`]; [`Refusal::WrongWidth`] also where the width is not a multiple of 4, and [`Refusal::NotDecimal`] for
    /// a digit above 9.
    #[inline]
    pub fn get_decimal(&self, entry: usize) -> Result<u64, Refusal> {
        let answer = raw::decimal(self.description, &self.bytes, 0, entry_number(entry));
        accepted(answer.number)?;
        Ok(answer.value)
    }
}

impl BitVecRef<'_> {
    /// The levels as a binary number, the first the highest.
    ///
    /// ```
    /// use yoksimert::{Refusal, SignalWriter};
    ///
    /// # fn main() -> Result<(), Refusal> {
    /// let mut fare = SignalWriter::new(8)?;
    /// fare.add_change(0, "10010011")?;
    /// let fare = fare.finish();
    /// let (_, fare) = fare.value_at(5)?.expect("a change at or before 5");
    /// let fare = fare.as_bit_vec().expect("a bit vector");
    /// assert_eq!((fare.unsigned(), fare.signed(), fare.decimal()), (Ok(147), Ok(-109), Ok(93)));
    /// # Ok(())
    /// # }
    /// ```
    ///
    /// # Errors
    /// [`Refusal::WrongWidth`] above 64 levels, [`Refusal::NotBinary`] for a level other than `0` and `1`, and [`Refusal::BadCode`],
    /// which no record of a writer gives.
    #[inline]
    pub fn unsigned(&self) -> Result<u64, Refusal> {
        self.signal.get_unsigned(self.entry as usize)
    }

    /// The levels in two's complement: where the first is `1`, the number is below 0.
    ///
    /// # Errors
    /// As [`BitVecRef::unsigned`].
    #[inline]
    pub fn signed(&self) -> Result<i64, Refusal> {
        self.signal.get_signed(self.entry as usize)
    }

    /// The levels in packed decimal: each four are a digit, the first the highest.
    ///
    /// # Errors
    /// As [`BitVecRef::unsigned`]; [`Refusal::WrongWidth`] also where the width is not a multiple of 4, and [`Refusal::NotDecimal`] for
    /// a digit above 9.
    #[inline]
    pub fn decimal(&self) -> Result<u64, Refusal> {
        self.signal.get_decimal(self.entry as usize)
    }
}
