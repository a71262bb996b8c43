//! Stored records, looked at as a whole before they are taken.

use crate::encoding::BIT_VECTOR;
use crate::raw;
use crate::refusal::accepted;
use crate::signal::{Known, Signal, count_of, entry_number};
use crate::{BitVecRef, FixedWidthEncoding, Refusal, TimeTableIdx};
use std::error::Error;
use std::fmt::{self, Display, Formatter};

/// What is wrong with a stored record. Entries are numbered from 0.
#[derive(Clone, Copy, PartialEq, Eq, Hash, Debug)]
#[non_exhaustive]
pub enum Unsound {
    /// A bit vector of this width, which is not 1 to 4,096.
    Width(u32),
    /// So many time indices, more than 1,048,576.
    TooMany(usize),
    /// More or fewer bytes than so many entries take: one of the two vectors was cut, or they are of two records.
    Length {
        /// The number of time indices.
        entries: usize,
        /// The bytes that they take.
        expected: usize,
        /// The bytes that are there.
        found: usize,
    },
    /// The time index of this entry is below the one before it.
    IndexFalls(usize),
    /// The mark of this entry is no set's, or above the record's largest set.
    BadMark(usize),
    /// This entry has a code that is no level's.
    BadCode(usize),
    /// This entry has bits beside its mark and its levels. It can be read, but not gone on with: a raise of the set would make a mark of
    /// them.
    SpareBits(usize),
    /// The archive refused the record with what only one of another version does.
    Refused(Refusal),
}

impl Unsound {
    /// The refusal of the call that would meet the fault; of spare bits, which [`SignalWriter::resume`](crate::SignalWriter::resume) alone
    /// looks at, [`Refusal::BadRecord`].
    #[must_use]
    pub fn refusal(self) -> Refusal {
        match self {
            Self::Width(_) | Self::TooMany(_) | Self::Length { .. } | Self::SpareBits(_) => {
                Refusal::BadRecord
            }
            Self::IndexFalls(_) => Refusal::IndexFalls,
            Self::BadMark(_) => Refusal::BadMark,
            Self::BadCode(_) => Refusal::BadCode,
            Self::Refused(refusal) => refusal,
        }
    }

    /// The first entry that is wrong, unless the record is wrong as a whole.
    #[must_use]
    pub fn entry(self) -> Option<usize> {
        match self {
            Self::IndexFalls(entry)
            | Self::BadMark(entry)
            | Self::BadCode(entry)
            | Self::SpareBits(entry) => Some(entry),
            _ => None,
        }
    }

    /// The number of entries, if the lengths are those of a record.
    pub(crate) fn count(
        time_indices: &[TimeTableIdx],
        encoding: FixedWidthEncoding,
        bytes: &[u8],
    ) -> Result<u32, Self> {
        let size = encoding.bytes_per_entry();
        let size = size.ok_or(Self::Width(encoding.width()))?;
        let entries = time_indices.len();
        let count = count_of(time_indices).ok_or(Self::TooMany(entries))?;
        let (expected, found) = (entries * size, bytes.len());
        if expected == found {
            Ok(count)
        } else {
            Err(Self::Length {
                entries,
                expected,
                found,
            })
        }
    }
}

impl Display for Unsound {
    fn fmt(&self, f: &mut Formatter<'_>) -> fmt::Result {
        match self {
            Self::Width(width) => write!(f, "a width of {width} is not 1 to 4,096"),
            Self::TooMany(count) => write!(f, "{count} time indices are more than 1,048,576"),
            Self::Length {
                entries,
                expected,
                found,
            } => write!(
                f,
                "{entries} entries take {expected} bytes, and {found} are there"
            ),
            Self::IndexFalls(entry) => {
                write!(
                    f,
                    "entry {entry}: the time index is below the one before it"
                )
            }
            Self::BadMark(entry) => {
                write!(
                    f,
                    "entry {entry}: the mark is no set's, or above the largest set"
                )
            }
            Self::BadCode(entry) => write!(f, "entry {entry}: a code is no level's"),
            Self::SpareBits(entry) => {
                write!(
                    f,
                    "entry {entry}: there are bits beside the mark and the levels"
                )
            }
            Self::Refused(refusal) => Display::fmt(refusal, f),
        }
    }
}

impl Error for Unsound {}

impl From<Unsound> for Refusal {
    fn from(fault: Unsound) -> Self {
        fault.refusal()
    }
}

impl Signal {
    /// The record of these time indices and bytes, if it is sound: the lengths are right, no time index falls, and every entry has a
    /// mark and codes that can be read. No call on such a record gives [`Refusal::BadRecord`], [`Refusal::IndexFalls`],
    /// [`Refusal::BadMark`] or [`Refusal::BadCode`]. Bits beside the levels are no fault, as no text, number or comparison reads them.
    ///
    /// What a save that was broken off leaves behind is refused where one of the vectors is then too short for the other. That the two are of
    /// one record their lengths can't tell, nor how many events there were, which have no bytes: a service saves both vectors in one file
    /// with their number, or under one sum.
    ///
    /// ```
    /// use yoksimert::{FixedWidthEncoding, Refusal, Signal, States, Unsound};
    ///
    /// let encoding = FixedWidthEncoding::BitVector { max_states: States::Four, width: 3 };
    /// assert!(Signal::checked(vec![0, 4], encoding, vec![0x61, 0x01]).is_ok());
    ///
    /// let cut = Signal::checked(vec![0, 4], encoding, vec![0x61]).err();
    /// assert_eq!(cut, Some(Unsound::Length { entries: 2, expected: 2, found: 1 }));
    /// let marked = Signal::checked(vec![0, 4], encoding, vec![0x61, 0xc1]).err();
    /// assert_eq!(marked, Some(Unsound::BadMark(1)));
    /// assert_eq!(marked.map(Refusal::from), Some(Refusal::BadMark));
    /// ```
    ///
    /// # Errors
    /// The first fault: of the lengths, then of the time indices, then of the entries in their order.
    pub fn checked(
        time_indices: Vec<TimeTableIdx>,
        encoding: FixedWidthEncoding,
        bytes: Vec<u8>,
    ) -> Result<Self, Unsound> {
        let mut signal = Self::measured(time_indices, encoding, bytes)?;
        signal.check()?;
        Ok(signal)
    }

    /// Looks at what isn't known yet.
    pub(crate) fn check(&mut self) -> Result<(), Unsound> {
        match self.known {
            Known::Made | Known::Sound => {}
            Known::Rises => {
                // Compare tests the mark and the codes of every entry that has a partner.
                if let Err(refusal) = self.compare(self) {
                    return Err(self.first_unreadable(refusal));
                }
                self.known = Known::Sound;
            }
            Known::Falls => return Err(self.first_fall()),
        }
        Ok(())
    }

    /// Looks at what a writer that goes on with the record needs besides: that the archive could have laid out every entry.
    pub(crate) fn check_spare(&mut self) -> Result<(), Unsound> {
        if self.known == Known::Sound && self.description.kind == BIT_VECTOR {
            let mut entries = 0..self.description.count;
            let spare = |entry: &u32| BitVecRef::new(self, *entry).has_spare_bits();
            if let Some(entry) = entries.find(spare) {
                return Err(Unsound::SpareBits(entry as usize));
            }
            self.known = Known::Made;
        }
        Ok(())
    }

    /// The first entry whose time index is below the one before it.
    fn first_fall(&self) -> Unsound {
        let mut pairs = self.time_indices().windows(2);
        match pairs.position(|pair| pair[1] < pair[0]) {
            Some(before) => Unsound::IndexFalls(before + 1),
            None => Unsound::Refused(Refusal::UnknownAnswer),
        }
    }

    /// The first entry whose text is refused.
    fn first_unreadable(&self, refusal: Refusal) -> Unsound {
        let mut text = [0; crate::encoding::MAX_WIDTH as usize];
        for entry in 0..self.len() {
            let number = entry_number(entry);
            let number = raw::text(self.description, &self.bytes, 0, number, &mut text);
            match accepted(number) {
                Ok(()) => {}
                Err(Refusal::BadMark) => return Unsound::BadMark(entry),
                Err(Refusal::BadCode) => return Unsound::BadCode(entry),
                Err(refusal) => return Unsound::Refused(refusal),
            }
        }
        Unsound::Refused(refusal)
    }
}
