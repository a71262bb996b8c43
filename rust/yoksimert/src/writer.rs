//! The recorder, after `SignalWriter` of wellen's src/fst.rs.

use crate::memory::{doubled_length, lengthen};
use crate::refusal::accepted;
use crate::{
    Added, FixedWidthEncoding, FstSignalValue, MAXIMUM, Refusal, Signal, SignalValueRef, States,
    TimeTableIdx, Unsound, raw,
};
use std::error::Error;
use std::fmt::{self, Debug, Display, Formatter};

/// Packs changes into a record.
///
/// ```
/// use yoksimert::{Added, Refusal, SignalWriter};
///
/// # fn main() -> Result<(), Refusal> {
/// let mut flag = SignalWriter::new(1)?;
/// flag.add_change(5, "0")?;
/// assert_eq!(flag.add_change(10, "0"), Ok(Added::Dropped)); // a repeat, and its time index with it
/// assert_eq!(flag.add_change(7, "1"), Ok(Added::Kept));
/// assert_eq!(flag.add_change(6, "0"), Err(Refusal::IndexBelowLast));
/// let flag = flag.finish();
/// assert_eq!(flag.time_indices(), [5, 7]);
/// assert_eq!(flag.bytes(), [0, 1]);
/// # Ok(())
/// # }
/// ```
///
/// What is recorded so far can be read at any time, and a record that was finished can be gone on with:
///
/// ```
/// use yoksimert::SignalWriter;
///
/// # fn main() -> Result<(), yoksimert::Refusal> {
/// let mut lamp = SignalWriter::with_capacity(1, 1_000)?;
/// lamp.add_change(3, "0")?;
/// assert_eq!(lamp.last_change()?.map(|(since, _)| since), Some(3));
/// let stored = lamp.as_signal().clone();
///
/// let mut lamp = SignalWriter::resume(stored)?;
/// lamp.add_change(9, "1")?;
/// assert_eq!(lamp.time_indices(), [3, 9]);
/// # Ok(())
/// # }
/// ```
#[derive(Clone)]
pub struct SignalWriter {
    /// With room behind its entries, as zeros.
    signal: Signal,
}

impl SignalWriter {
    /// For so many wires; width 0 makes an event.
    ///
    /// # Errors
    /// [`Refusal::WidthTooLarge`] above 4,096.
    pub fn new(width: u32) -> Result<Self, Refusal> {
        let made = raw::fresh(width);
        accepted(made.number)?;
        Ok(Self {
            signal: Signal::empty(made.description),
        })
    }

    /// The same, with room for so many changes, as by [`SignalWriter::reserve`].
    ///
    /// # Errors
    /// [`Refusal::WidthTooLarge`] above 4,096, [`Refusal::NoRoom`] for more than 1,048,576 changes, [`Refusal::OutOfMemory`].
    pub fn with_capacity(width: u32, changes: usize) -> Result<Self, Refusal> {
        let mut writer = Self::new(width)?;
        writer.reserve(changes)?;
        Ok(writer)
    }

    /// For reals.
    #[must_use]
    pub fn new_real() -> Self {
        Self {
            signal: Signal::empty(raw::fresh_real()),
        }
    }

    /// For an event, which has no value.
    #[must_use]
    pub fn new_event() -> Self {
        Self {
            signal: Signal::empty(raw::fresh(0).description),
        }
    }

    /// Goes on with a record, in its own vectors. If a writer made it, what follows is as if that writer had gone on; to any other sound
    /// record changes are added in the same way.
    ///
    /// # Errors
    /// A record that [`Signal::checked`] would refuse, or that has bits beside its levels, is given back with what is wrong. What a writer
    /// or [`transform_signal`] made isn't looked at again.
    ///
    /// [`transform_signal`]: crate::transform_signal
    pub fn resume(mut signal: Signal) -> Result<Self, NotResumed> {
        match signal.check().and_then(|()| signal.check_spare()) {
            Ok(()) => Ok(Self { signal }),
            Err(fault) => Err(NotResumed { fault, signal }),
        }
    }

    /// Makes room for so many changes more, in entries of the largest set so far. Without it, or where a change raises the set, the room
    /// grows by doubling.
    ///
    /// # Errors
    /// [`Refusal::NoRoom`] if the record would have more than 1,048,576 changes, [`Refusal::OutOfMemory`]; the record is as it was.
    pub fn reserve(&mut self, changes: usize) -> Result<(), Refusal> {
        let count = self.len().saturating_add(changes);
        if count > MAXIMUM {
            return Err(Refusal::NoRoom);
        }
        let size = self.signal.entry_size();
        lengthen(&mut self.signal.time_indices, count)?;
        lengthen(&mut self.signal.bytes, count * size)
    }

    /// The record so far, for whatever a [`Signal`] can be asked.
    #[must_use]
    #[inline]
    pub fn as_signal(&self) -> &Signal {
        &self.signal
    }

    /// The number of changes kept so far.
    #[must_use]
    #[inline]
    pub fn len(&self) -> usize {
        self.signal.len()
    }

    /// Whether no change was kept so far.
    #[must_use]
    #[inline]
    pub fn is_empty(&self) -> bool {
        self.signal.is_empty()
    }

    /// What the entries are, with the largest set so far.
    #[must_use]
    pub fn encoding(&self) -> FixedWidthEncoding {
        self.signal.encoding()
    }

    /// The time index of each change kept so far.
    #[must_use]
    pub fn time_indices(&self) -> &[TimeTableIdx] {
        self.signal.time_indices()
    }

    /// The bytes of all entries so far. A change that raises the set lays them out anew.
    #[must_use]
    pub fn bytes(&self) -> &[u8] {
        self.signal.bytes()
    }

    /// The value of an entry, by its number from 0.
    ///
    /// # Errors
    /// As [`Signal::get_entry`].
    pub fn get_entry(&self, entry: usize) -> Result<SignalValueRef<'_>, Refusal> {
        self.signal.get_entry(entry)
    }

    /// The last change kept, if there is one.
    ///
    /// # Errors
    /// As [`Signal::last_change`].
    pub fn last_change(&self) -> Result<Option<(TimeTableIdx, SignalValueRef<'_>)>, Refusal> {
        self.signal.last_change()
    }

    /// Adds a change, and tells whether it was kept. One whose value is the last one's is dropped, unless it is an event's.
    ///
    /// # Errors
    /// In this order: [`Refusal::WrongKind`], [`Refusal::WrongLength`], [`Refusal::ForeignCharacter`], [`Refusal::IndexBelowLast`], and
    /// [`Refusal::NoRoom`] for a change beyond the 1,048,576th. [`Refusal::OutOfMemory`] where the record can't grow; it is then as it
    /// was, and the change can be offered again.
    #[inline]
    pub fn add_change<'a>(
        &mut self,
        time_idx: TimeTableIdx,
        value: impl Into<FstSignalValue<'a>>,
    ) -> Result<Added, Refusal> {
        let (value, before) = (value.into(), self.len());
        let mut number = self.try_change(time_idx, value);
        while number == u32::from(Refusal::NoRoom.number()) && self.grow()? {
            number = self.try_change(time_idx, value);
        }
        accepted(number)?;
        Ok(if self.len() == before {
            Added::Dropped
        } else {
            Added::Kept
        })
    }

    /// The number of the answer; on a refusal the record is as it was.
    #[inline]
    fn try_change(&mut self, time_idx: TimeTableIdx, value: FstSignalValue<'_>) -> u32 {
        let Signal {
            description,
            bytes,
            time_indices,
            ..
        } = &mut self.signal;
        match value {
            FstSignalValue::String(string) => {
                raw::recorder_add_change(description, bytes, 0, time_indices, 0, time_idx, string)
            }
            FstSignalValue::Real(real) => {
                let bits = real.to_bits();
                raw::recorder_add_real(description, bytes, 0, time_indices, 0, time_idx, bits)
            }
        }
    }

    /// Makes room in a vector that may lack it for one entry more; false if none does.
    #[cold]
    fn grow(&mut self) -> Result<bool, Refusal> {
        let count = self.len();
        let entry = self.largest_entry();
        let Signal {
            bytes,
            time_indices,
            ..
        } = &mut self.signal;
        if count == MAXIMUM {
            return Ok(false);
        }
        if time_indices.len() == count {
            let length = doubled_length(count, MAXIMUM);
            lengthen(time_indices, length)?;
        } else if bytes.len() < (count + 1) * entry {
            let length = doubled_length(bytes.len(), MAXIMUM * entry);
            lengthen(bytes, length)?;
        } else {
            return Ok(false);
        }
        Ok(true)
    }

    /// The most bytes that an entry may come to take.
    fn largest_entry(&self) -> usize {
        let largest = match self.encoding() {
            FixedWidthEncoding::BitVector { width, .. } => FixedWidthEncoding::BitVector {
                max_states: States::Nine,
                width,
            },
            other => other,
        };
        largest.bytes_per_entry().unwrap_or_default()
    }

    /// The record. Room that is left is given back.
    #[must_use]
    pub fn finish(self) -> Signal {
        self.signal.cut()
    }
}

impl AsRef<Signal> for SignalWriter {
    fn as_ref(&self) -> &Signal {
        self.as_signal()
    }
}

impl Debug for SignalWriter {
    fn fmt(&self, f: &mut Formatter<'_>) -> fmt::Result {
        let (changes, encoding) = (self.len(), self.encoding());
        write!(f, "SignalWriter({changes} changes, {encoding:?})")
    }
}

/// A record that [`SignalWriter::resume`] did not take.
#[derive(Debug)]
pub struct NotResumed {
    /// What is wrong with it.
    pub fault: Unsound,
    /// The record, as it was.
    pub signal: Signal,
}

impl Display for NotResumed {
    fn fmt(&self, f: &mut Formatter<'_>) -> fmt::Result {
        Display::fmt(&self.fault, f)
    }
}

impl Error for NotResumed {}

impl From<NotResumed> for Refusal {
    fn from(refused: NotResumed) -> Self {
        refused.fault.refusal()
    }
}
