//! Records and what is read of them, after wellen's src/signal/mod.rs.

use crate::encoding::BIT_VECTOR;
use crate::raw::{self, FlatDescription, FlatRecord};
use crate::refusal::accepted;
use crate::value::{BitVecRef, SignalValueRef, States};
use crate::{FixedWidthEncoding, MAXIMUM, Refusal, TimeTableIdx, Unsound};
use std::fmt::{self, Debug, Formatter};

/// A record: the time indices of its changes and the bytes of its entries.
///
/// A [`SignalWriter`](crate::SignalWriter) makes it, or [`transform_signal`](crate::transform_signal), and then only the refusals that a
/// wrong argument brings can come. What was stored is taken by [`Signal::checked`], which looks at all of it, or by
/// [`Signal::new_fixed_len`], which looks at the lengths alone, and then time indices that fall, bad marks and bad codes come up at the
/// call that meets them.
///
/// ```
/// use yoksimert::SignalWriter;
///
/// # fn main() -> Result<(), yoksimert::Refusal> {
/// let mut writer = SignalWriter::new(4)?;
/// writer.add_change(0, "1010")?;
/// writer.add_change(7, "10xz")?;
/// let tariff = writer.finish();
/// assert_eq!(tariff.time_indices(), [0, 7]);
/// assert_eq!(tariff.bytes(), [0x00, 0x0a, 0x40, 0x4b]);
///
/// let (since, value) = tariff.value_at(9)?.expect("there is a change at or before 9");
/// assert_eq!((since, value.to_string()), (7, "10xz".to_string()));
/// # Ok(())
/// # }
/// ```
pub struct Signal {
    pub(crate) description: FlatDescription,
    /// The entries. In a writer there is room behind them, and in `time_indices` too.
    pub(crate) bytes: Vec<u8>,
    pub(crate) time_indices: Vec<TimeTableIdx>,
    pub(crate) known: Known,
}

/// What is known of a record whose lengths are right; each includes what stands above it, but for the first.
#[derive(Clone, Copy, PartialEq, Eq, PartialOrd, Ord, Debug)]
pub(crate) enum Known {
    /// A time index is below the one before it.
    Falls,
    /// No time index falls.
    Rises,
    /// Every entry has a text. It may have spare bits too, which a raise of the set would make a mark of.
    Sound,
    /// The archive laid out every entry, or could have.
    Made,
}

impl Signal {
    /// The record of these time indices and bytes, whose lengths must be a record's.
    ///
    /// # Errors
    /// [`Refusal::BadRecord`] for a width that is not 1 to 4,096, for more than 1,048,576 time indices, and for more or fewer bytes than
    /// their entries take.
    pub fn new_fixed_len(
        time_indices: Vec<TimeTableIdx>,
        encoding: FixedWidthEncoding,
        bytes: Vec<u8>,
    ) -> Result<Self, Refusal> {
        Ok(Self::measured(time_indices, encoding, bytes)?)
    }

    /// The same, with what is wrong. Order alone is looked at besides the lengths.
    pub(crate) fn measured(
        time_indices: Vec<TimeTableIdx>,
        encoding: FixedWidthEncoding,
        bytes: Vec<u8>,
    ) -> Result<Self, Unsound> {
        let count = Unsound::count(&time_indices, encoding, &bytes)?;
        let known = match raw::look_up(&time_indices, 0).number {
            0 => Known::Rises,
            _ => Known::Falls,
        };
        Ok(Self {
            description: encoding.description(count),
            bytes,
            time_indices,
            known,
        })
    }

    /// An empty record.
    pub(crate) fn empty(description: FlatDescription) -> Self {
        Self {
            description,
            bytes: Vec::new(),
            time_indices: Vec::new(),
            known: Known::Made,
        }
    }

    /// Gives back the room behind the record.
    pub(crate) fn cut(mut self) -> Self {
        self.bytes.truncate(self.used());
        self.bytes.shrink_to_fit();
        self.time_indices.truncate(self.len());
        self.time_indices.shrink_to_fit();
        self
    }

    /// The vectors, for a service that saves them. [`Signal::checked`] takes them in this order.
    ///
    /// ```
    /// use yoksimert::{Signal, SignalWriter};
    ///
    /// # fn main() -> Result<(), yoksimert::Refusal> {
    /// let mut lamp = SignalWriter::new(1)?;
    /// lamp.add_change(3, "1")?;
    /// let (time_indices, encoding, bytes) = lamp.finish().into_parts();
    /// let lamp = Signal::checked(time_indices, encoding, bytes)?;
    /// assert_eq!(lamp.get_entry(0)?.to_string(), "1");
    /// # Ok(())
    /// # }
    /// ```
    #[must_use]
    pub fn into_parts(self) -> (Vec<TimeTableIdx>, FixedWidthEncoding, Vec<u8>) {
        let encoding = self.encoding();
        (self.time_indices, encoding, self.bytes)
    }

    /// What the entries are.
    #[must_use]
    #[inline]
    pub fn encoding(&self) -> FixedWidthEncoding {
        FixedWidthEncoding::of_description(self.description)
    }

    /// The largest set of a bit vector.
    #[must_use]
    pub fn max_states(&self) -> Option<States> {
        match self.encoding() {
            FixedWidthEncoding::BitVector { max_states, .. } => Some(max_states),
            _ => None,
        }
    }

    /// The number of changes.
    #[must_use]
    #[inline]
    pub fn len(&self) -> usize {
        self.description.count as usize
    }

    /// Whether there is no change.
    #[must_use]
    #[inline]
    pub fn is_empty(&self) -> bool {
        self.len() == 0
    }

    /// The time index of each change.
    #[must_use]
    #[inline]
    pub fn time_indices(&self) -> &[TimeTableIdx] {
        self.time_indices.get(..self.len()).unwrap_or_default()
    }

    /// The bytes of all entries, one behind the other.
    #[must_use]
    #[inline]
    pub fn bytes(&self) -> &[u8] {
        self.bytes.get(..self.used()).unwrap_or_default()
    }

    /// How many bytes the entries take.
    #[inline]
    pub(crate) fn used(&self) -> usize {
        self.len() * self.entry_size()
    }

    /// A record's encoding has a size.
    #[inline]
    pub(crate) fn entry_size(&self) -> usize {
        self.encoding().bytes_per_entry().unwrap_or_default()
    }

    /// The time index of the first change.
    #[must_use]
    pub fn get_first_time_idx(&self) -> Option<TimeTableIdx> {
        self.time_indices().first().copied()
    }

    /// The value of an entry, by its number from 0.
    ///
    /// # Errors
    /// [`Refusal::NoSuchEntry`]. [`Refusal::BadMark`] for a record that no writer made.
    #[inline]
    pub fn get_entry(&self, entry: usize) -> Result<SignalValueRef<'_>, Refusal> {
        let (entry, FlatDescription { kind, count, .. }) = (entry_number(entry), self.description);
        let levels = SignalValueRef::BitVec(BitVecRef::new(self, entry));
        // Read refuses no entry of a sound record. Its answer is asked for when it is looked at.
        if kind == BIT_VECTOR && self.known >= Known::Sound && entry < count {
            return Ok(levels);
        }
        let answer = raw::read(self.description, &self.bytes, 0, entry);
        accepted(answer.number)?;
        match self.encoding() {
            FixedWidthEncoding::Event => Ok(SignalValueRef::Event),
            FixedWidthEncoding::Real => {
                let part = self.bytes.get(answer.start..).unwrap_or_default();
                let real = part.first_chunk().ok_or(Refusal::UnknownAnswer)?;
                Ok(SignalValueRef::Real(f64::from_le_bytes(*real)))
            }
            FixedWidthEncoding::BitVector { .. } => Ok(levels),
        }
    }

    fn record(&self) -> FlatRecord<'_> {
        FlatRecord {
            description: self.description,
            bytes: &self.bytes,
            byte_start: 0,
            indices: &self.time_indices,
            index_start: 0,
        }
    }

    /// Whether both records have the same time indices and values; `==` says no where this is refused. [`Signal::same_record`] asks
    /// whether they are one record.
    ///
    /// Bit vectors of one width are compared by their levels, whatever their largest sets; reals by `==`, so NaN differs from itself.
    /// Two empty records are equal.
    ///
    /// # Errors
    /// [`Refusal::BadMark`], [`Refusal::BadCode`], for records that no writer made.
    pub fn compare(&self, other: &Self) -> Result<bool, Refusal> {
        let answer = raw::compare(self.record(), other.record());
        accepted(answer.number)?;
        Ok(answer.equal)
    }

    /// Whether both are the same record: kind, width, largest set, time indices and bytes.
    ///
    /// ```
    /// use yoksimert::{FixedWidthEncoding, Signal, SignalWriter, States};
    ///
    /// # fn main() -> Result<(), yoksimert::Refusal> {
    /// let mut writer = SignalWriter::new(1)?;
    /// writer.add_change(0, "1")?;
    /// let two = writer.finish();
    /// let encoding = FixedWidthEncoding::BitVector { max_states: States::Four, width: 1 };
    /// let four = Signal::checked(vec![0], encoding, vec![0x01])?;
    /// assert!(two == four && !two.same_record(&four));
    /// # Ok(())
    /// # }
    /// ```
    #[must_use]
    pub fn same_record(&self, other: &Self) -> bool {
        self.description == other.description
            && self.time_indices() == other.time_indices()
            && self.bytes() == other.bytes()
    }
}

/// Room that a writer has behind the record isn't copied.
impl Clone for Signal {
    fn clone(&self) -> Self {
        Self {
            bytes: self.bytes().to_vec(),
            time_indices: self.time_indices().to_vec(),
            ..*self
        }
    }
}

/// As [`Signal::compare`], and no where that is refused.
impl PartialEq for Signal {
    fn eq(&self, other: &Self) -> bool {
        self.compare(other) == Ok(true)
    }
}

impl Debug for Signal {
    fn fmt(&self, f: &mut Formatter<'_>) -> fmt::Result {
        let (changes, encoding, bytes) = (self.len(), self.encoding(), self.used());
        write!(
            f,
            "Signal({changes} changes, {encoding:?}, {bytes} data bytes)"
        )
    }
}

/// The number of entries for the archive, if a record can have so many.
pub(crate) fn count_of(time_indices: &[TimeTableIdx]) -> Option<u32> {
    let count = time_indices.len();
    (count <= MAXIMUM).then_some(count as u32)
}

/// An entry's number for the archive; one too great is above every entry's, as a record has fewer entries than `u32::MAX`.
#[inline]
pub(crate) fn entry_number(entry: usize) -> u32 {
    u32::try_from(entry).unwrap_or(u32::MAX)
}

#[cfg(test)]
mod tests {
    use crate::{Added, SignalWriter};

    #[test]
    fn a_record_keeps_no_spare_room() {
        let mut writer = SignalWriter::new(9).expect("the width stands");
        for time_idx in 0..100 {
            let string = ["000000000", "00000000x"][time_idx as usize % 2];
            assert_eq!(writer.add_change(time_idx, string), Ok(Added::Kept));
        }
        let copy = writer.as_signal().clone();
        for signal in [writer.finish(), copy] {
            let (bytes, time_indices) = (&signal.bytes, &signal.time_indices);
            assert_eq!((bytes.len(), bytes.capacity()), (300, 300));
            assert_eq!((time_indices.len(), time_indices.capacity()), (100, 100));
        }
    }
}
