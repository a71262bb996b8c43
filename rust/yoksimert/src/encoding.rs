//! What the entries of a record are, and how many bytes each takes.

use crate::States;
use crate::raw::FlatDescription;

/// The most wires of a bit vector.
pub(crate) const MAX_WIDTH: u32 = 4_096;

/// The kind of a bit vector in a description.
pub(crate) const BIT_VECTOR: u32 = 2;

/// What the entries of a record are.
#[derive(Clone, Copy, PartialEq, Eq, Hash, Debug)]
pub enum FixedWidthEncoding {
    /// Levels of so many wires.
    BitVector {
        /// The largest set among the entries, by which all are laid out.
        max_states: States,
        /// The number of wires.
        width: u32,
    },
    /// The 8 bytes of a double, least first.
    Real,
    /// No bytes: the time indices say when the event took place.
    Event,
}

impl FixedWidthEncoding {
    /// The bytes of each entry, a byte for the mark included; none for a bit vector of a width other than 1 to 4,096, which no record
    /// has.
    ///
    /// ```
    /// use yoksimert::{FixedWidthEncoding, States};
    ///
    /// let levels = |max_states, width| FixedWidthEncoding::BitVector { max_states, width };
    /// assert_eq!(levels(States::Two, 9).bytes_per_entry(), Some(2));
    /// assert_eq!(levels(States::Four, 8).bytes_per_entry(), Some(3));
    /// assert_eq!(levels(States::Nine, 4_097).bytes_per_entry(), None);
    /// assert_eq!(FixedWidthEncoding::Event.bytes_per_entry(), Some(0));
    /// ```
    #[must_use]
    #[inline]
    pub fn bytes_per_entry(self) -> Option<usize> {
        match self {
            Self::Event => Some(0),
            Self::Real => Some(8),
            Self::BitVector { max_states, width } => (1..=MAX_WIDTH)
                .contains(&width)
                .then(|| level_bytes(max_states, width)),
        }
    }

    /// The number of wires; 0 for a real or an event.
    #[inline]
    pub(crate) fn width(self) -> u32 {
        match self {
            Self::BitVector { width, .. } => width,
            Self::Real | Self::Event => 0,
        }
    }

    #[inline]
    pub(crate) fn description(self, count: u32) -> FlatDescription {
        let (kind, width, set) = match self {
            Self::Event => (0, 0, 0),
            Self::Real => (1, 0, 0),
            Self::BitVector { max_states, width } => {
                (BIT_VECTOR, width, u32::from(max_states.mark()))
            }
        };
        FlatDescription::new(kind, width, set, count)
    }

    /// Of a description that the archive gave with an accepted call.
    #[inline]
    pub(crate) fn of_description(flat: FlatDescription) -> Self {
        match flat.kind {
            0 => Self::Event,
            1 => Self::Real,
            _ => Self::BitVector {
                max_states: States::of_number(flat.set),
                width: flat.width,
            },
        }
    }
}

/// Under Four and Nine there are two bits beside the levels for the mark; where the levels fill whole bytes, these take one more.
#[inline]
fn level_bytes(max_states: States, width: u32) -> usize {
    let width = width as usize;
    match max_states {
        States::Two => width.div_ceil(8),
        States::Four => width / 4 + 1,
        States::Nine => width / 2 + 1,
    }
}
