//! What holds at a time index.

use crate::raw::{self, FlatOffset};
use crate::refusal::accepted;
use crate::signal::{Known, Signal};
use crate::{NonZeroTimeTableIdx, Refusal, SignalValueRef, TimeTableIdx};

/// Where the changes of a time index are in a record.
#[derive(Clone, PartialEq, Eq, Debug)]
pub struct DataOffset {
    /// The number of the first entry of that time index.
    pub start: usize,
    /// How many entries carry it.
    pub elements: u32,
    /// Whether it is the time index that was asked for, and not an earlier one.
    pub time_match: bool,
    /// The next greater time index in the record.
    pub next_index: Option<NonZeroTimeTableIdx>,
}

impl Signal {
    /// Look up's answer. One that is refused takes the scan for what falls.
    #[inline]
    fn find(&self, time_idx: TimeTableIdx) -> Result<FlatOffset, Refusal> {
        let indices = self.time_indices();
        let answer = match self.known {
            Known::Falls => raw::look_up(indices, time_idx),
            _ => raw::search(indices, time_idx),
        };
        accepted(answer.number)?;
        Ok(answer)
    }

    /// How many entries have a time index not above this one.
    #[inline]
    pub(crate) fn count_until(&self, time_idx: TimeTableIdx) -> Result<usize, Refusal> {
        let answer = self.find(time_idx)?;
        // Where nothing is found, both are 0.
        Ok(answer.start.saturating_add(answer.elements as usize))
    }

    /// Where the changes of the greatest time index not above `time_idx` are; none if there is no such index. It is found by quartering,
    /// so the time grows with the logarithm of the record's length.
    ///
    /// # Errors
    /// [`Refusal::IndexFalls`], which no record of a writer gives, nor one that was [`checked`](Signal::checked).
    #[inline]
    pub fn get_offset(&self, time_idx: TimeTableIdx) -> Result<Option<DataOffset>, Refusal> {
        let answer = self.find(time_idx)?;
        Ok(answer.found.then_some(DataOffset {
            start: answer.start,
            elements: answer.elements,
            time_match: answer.time_match,
            next_index: NonZeroTimeTableIdx::new(answer.next_index),
        }))
    }

    /// The time index at an offset; none if the offset is of another record and reaches past this one.
    #[must_use]
    #[inline]
    pub fn get_time_idx_at(&self, offset: &DataOffset) -> Option<TimeTableIdx> {
        self.time_indices().get(offset.start).copied()
    }

    /// The value at an offset, by its number among the changes of that time index.
    ///
    /// # Errors
    /// [`Refusal::NoSuchEntry`] also for an element not below `offset.elements`; else as [`Signal::get_entry`].
    #[inline]
    pub fn get_value_at(
        &self,
        offset: &DataOffset,
        element: u32,
    ) -> Result<SignalValueRef<'_>, Refusal> {
        if element >= offset.elements {
            return Err(Refusal::NoSuchEntry);
        }
        self.get_entry(offset.start.saturating_add(element as usize))
    }

    /// The value that holds at `time_idx`: the last change not after it, with its own time index; none if there is no such change. Like
    /// [`Signal::get_offset`], it searches.
    ///
    /// ```
    /// use yoksimert::SignalWriter;
    ///
    /// # fn main() -> Result<(), yoksimert::Refusal> {
    /// let mut lamp = SignalWriter::new(1)?;
    /// for (time_idx, level) in [(3, "0"), (5, "1"), (5, "z"), (9, "0")] {
    ///     lamp.add_change(time_idx, level)?;
    /// }
    /// let lamp = lamp.finish();
    /// let (since, level) = lamp.value_at(7)?.expect("the lamp was clipped on at 3");
    /// assert_eq!((since, level.to_string()), (5, "z".to_string()));
    /// assert_eq!(lamp.value_at(2)?, None);
    /// # Ok(())
    /// # }
    /// ```
    ///
    /// # Errors
    /// As [`Signal::get_offset`] and [`Signal::get_entry`].
    #[inline]
    pub fn value_at(
        &self,
        time_idx: TimeTableIdx,
    ) -> Result<Option<(TimeTableIdx, SignalValueRef<'_>)>, Refusal> {
        match self.count_until(time_idx)?.checked_sub(1) {
            None => Ok(None),
            Some(last) => self.change(last).map(Some),
        }
    }
}
