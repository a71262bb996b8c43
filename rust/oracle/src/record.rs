//! Records (document 01, A record).

use crate::entry::entry_size;
use crate::level::States;
use crate::{MAX_WIDTH, MAXIMUM};

/// What the entries of a record hold.
#[derive(Clone, Copy, PartialEq, Eq, Debug)]
pub enum Encoding {
    /// No bytes.
    Event,
    /// The 64 bits of a float, little-endian.
    Real,
    /// Levels, with the largest set of the record.
    BitVector {
        /// The number of levels in an entry.
        width: u32,
        /// The record's largest set.
        max_states: States,
    },
}

impl Encoding {
    /// The bytes of one entry.
    pub(crate) fn entry_size(self) -> usize {
        match self {
            Encoding::Event => 0,
            Encoding::Real => 8,
            Encoding::BitVector { width, max_states } => entry_size(width, max_states),
        }
    }
}

/// A record without the bytes and indices that it is lent.
#[derive(Clone, Copy, PartialEq, Eq, Debug)]
pub struct Description {
    /// What the entries hold.
    pub encoding: Encoding,
    /// The number of entries.
    pub count: u32,
}

impl Description {
    /// A record without entries.
    pub fn empty(encoding: Encoding) -> Self {
        Self::counting(encoding, 0)
    }

    /// A record with these used indices.
    pub fn of(encoding: Encoding, indices: &[u32]) -> Self {
        Self::counting(encoding, indices.len() as u32)
    }

    /// So many entries, whether or not there are slices with them.
    pub fn counting(encoding: Encoding, count: u32) -> Self {
        Description { encoding, count }
    }

    /// Whether the width and the count stand, and the used bytes lie within the lent ones.
    pub(crate) fn holds_bytes(self, bytes: Extent) -> bool {
        let width_stands = match self.encoding {
            Encoding::BitVector { width, .. } => (1..=MAX_WIDTH).contains(&width),
            Encoding::Event | Encoding::Real => true,
        };
        width_stands
            && self.count <= MAXIMUM
            && bytes.has_room_for(self.count, self.encoding.entry_size())
    }

    /// The same, and the used indices lie within the lent ones.
    pub(crate) fn holds(self, bytes: Extent, indices: Extent) -> bool {
        self.holds_bytes(bytes) && indices.has_room_for(self.count, 1)
    }
}

/// The extent of a lent slice, and where its used part begins.
#[derive(Clone, Copy)]
pub(crate) struct Extent {
    length: usize,
    start: usize,
}

impl Extent {
    pub(crate) fn new<T>(slice: &[T], start: usize) -> Extent {
        let length = slice.len();
        Extent { length, start }
    }

    /// Whether so many elements of a size, from the start, end within the slice, in numbers
    /// that can't wrap.
    fn has_room_for(self, count: u32, size: usize) -> bool {
        self.start as u128 + u128::from(count) * size as u128 <= self.length as u128
    }
}
