//! Changes one after another, from either end.

use crate::signal::Known;
use crate::{Refusal, Signal, SignalValueRef, TimeTableIdx};
use std::iter::FusedIterator;
use std::ops::{Bound, Range, RangeBounds};

/// A change: its time index and its value, or why the value is refused.
type Change<'a> = Result<(TimeTableIdx, SignalValueRef<'a>), Refusal>;

impl Signal {
    /// The time index and the value of an entry.
    #[inline]
    pub(crate) fn change(&self, entry: usize) -> Change<'_> {
        let value = self.get_entry(entry)?;
        let time_idx = self.time_indices().get(entry);
        Ok((*time_idx.ok_or(Refusal::NoSuchEntry)?, value))
    }

    /// Every change, in order: its time index and its value, or why the value is refused.
    #[must_use]
    #[inline]
    pub fn iter_changes(&self) -> Changes<'_> {
        Changes {
            signal: self,
            entries: 0..self.len(),
        }
    }

    /// The changes whose time indices are in the range, which two searches find. What holds where the range begins may be an earlier
    /// change: [`Signal::value_at`] gives it.
    ///
    /// ```
    /// use yoksimert::SignalWriter;
    ///
    /// # fn main() -> Result<(), yoksimert::Refusal> {
    /// let mut lamp = SignalWriter::new(1)?;
    /// for (time_idx, level) in [(3, "0"), (5, "1"), (5, "z"), (9, "0")] {
    ///     lamp.add_change(time_idx, level)?;
    /// }
    /// let lamp = lamp.finish();
    /// assert_eq!(lamp.changes_in(4..9)?.len(), 2);
    /// let (time_idx, level) = lamp.changes_in(..9)?.next_back().expect("there are changes")?;
    /// assert_eq!((time_idx, level.to_string()), (5, "z".to_string()));
    /// # Ok(())
    /// # }
    /// ```
    ///
    /// # Errors
    /// [`Refusal::IndexFalls`], which no record of a writer gives, nor one that was [`checked`](Signal::checked).
    pub fn changes_in(
        &self,
        range: impl RangeBounds<TimeTableIdx>,
    ) -> Result<Changes<'_>, Refusal> {
        if self.known == Known::Falls {
            return Err(Refusal::IndexFalls);
        }
        let before = |time_idx: TimeTableIdx| match time_idx.checked_sub(1) {
            None => Ok(0),
            Some(last) => self.count_until(last),
        };
        let begin = match range.start_bound() {
            Bound::Unbounded => 0,
            Bound::Included(first) => before(*first)?,
            Bound::Excluded(last) => self.count_until(*last)?,
        };
        let end = match range.end_bound() {
            Bound::Unbounded => self.len(),
            Bound::Included(last) => self.count_until(*last)?,
            Bound::Excluded(first) => before(*first)?,
        };
        Ok(Changes {
            signal: self,
            entries: begin..end,
        })
    }

    /// The last change, if there is one.
    ///
    /// # Errors
    /// As [`Signal::get_entry`].
    #[inline]
    pub fn last_change(&self) -> Result<Option<(TimeTableIdx, SignalValueRef<'_>)>, Refusal> {
        self.iter_changes().next_back().transpose()
    }
}

/// Changes of a record, in order; [`Signal::iter_changes`] and [`Signal::changes_in`] give them. Each is read when it is asked for, and any
/// number of them is passed over in constant time.
#[derive(Clone, Debug)]
pub struct Changes<'a> {
    signal: &'a Signal,
    entries: Range<usize>,
}

impl<'a> Iterator for Changes<'a> {
    type Item = Change<'a>;

    #[inline]
    fn next(&mut self) -> Option<Self::Item> {
        self.entries.next().map(|entry| self.signal.change(entry))
    }

    #[inline]
    fn size_hint(&self) -> (usize, Option<usize>) {
        self.entries.size_hint()
    }

    #[inline]
    fn nth(&mut self, n: usize) -> Option<Self::Item> {
        self.entries.nth(n).map(|entry| self.signal.change(entry))
    }

    #[inline]
    fn count(self) -> usize {
        self.entries.len()
    }

    #[inline]
    fn last(mut self) -> Option<Self::Item> {
        self.next_back()
    }
}

impl DoubleEndedIterator for Changes<'_> {
    #[inline]
    fn next_back(&mut self) -> Option<Self::Item> {
        self.entries
            .next_back()
            .map(|entry| self.signal.change(entry))
    }

    #[inline]
    fn nth_back(&mut self, n: usize) -> Option<Self::Item> {
        self.entries
            .nth_back(n)
            .map(|entry| self.signal.change(entry))
    }
}

impl ExactSizeIterator for Changes<'_> {}

impl FusedIterator for Changes<'_> {}
