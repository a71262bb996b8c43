//! Read an entry (document 01).

use std::ops::Range;

use crate::entry::{level_bytes, own_set};
use crate::level::States;
use crate::record::{Description, Encoding, Extent};
use crate::{Refusal, refuse_if};

/// The kind of an entry.
#[derive(Clone, Copy, PartialEq, Eq, Debug)]
pub enum Kind {
    /// An event.
    Event,
    /// A real.
    Real,
    /// A bit vector.
    BitVector,
}

/// The answer of Read an entry.
#[derive(Clone, PartialEq, Eq, Debug)]
pub struct Entry {
    /// The kind.
    pub kind: Kind,
    /// The own set; Two for a real and an event.
    pub states: States,
    /// The positions in the lent bytes that hold the levels.
    pub part: Range<usize>,
}

/// Reads an entry.
///
/// # Errors
/// 2, 8, 9.
pub fn read(d: Description, bytes: &[u8], byte_start: usize, entry: u32) -> Result<Entry, Refusal> {
    refuse_if(!d.holds_bytes(Extent::new(bytes, byte_start)), 2)?;
    refuse_if(entry >= d.count, 8)?;
    let size = d.encoding.entry_size();
    let start = byte_start + entry as usize * size;
    let end = start + size;
    let (kind, states, length) = match d.encoding {
        Encoding::Event => (Kind::Event, States::Two, 0),
        Encoding::Real => (Kind::Real, States::Two, 8),
        Encoding::BitVector { width, max_states } => {
            let own = own_set(max_states, &bytes[start..end])?;
            (Kind::BitVector, own, level_bytes(width, own))
        }
    };
    let part = end - length..end;
    Ok(Entry { kind, states, part })
}
