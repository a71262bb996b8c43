use oracle::{Description, Encoding, States};
use std::ops::Range;

/// wellen panicked.
#[derive(Clone, Copy, PartialEq, Eq, Debug)]
pub struct Refused;

/// A description and the used part that goes with it.
#[derive(Clone, PartialEq, Eq, Debug)]
pub struct Used {
    pub description: Description,
    pub bytes: Vec<u8>,
    pub indices: Vec<u32>,
}

impl Used {
    /// The used part of a record without entries.
    pub fn empty(description: Description) -> Self {
        Self {
            description,
            bytes: Vec::new(),
            indices: Vec::new(),
        }
    }

    pub fn of(encoding: Encoding, bytes: &[u8], indices: &[u32]) -> Self {
        Self {
            description: Description::of(encoding, indices),
            bytes: bytes.to_vec(),
            indices: indices.to_vec(),
        }
    }
}

/// What an entry holds. `part` is the place of the levels within the used bytes.
#[derive(Clone, PartialEq, Eq, Debug)]
pub enum Value {
    Event,
    Real(u64),
    BitVector { states: States, part: Range<usize> },
}

/// The numbers of a derivation, without document 01's limits on how many there are.
#[derive(Clone, PartialEq, Eq, Debug)]
pub struct Pieces {
    pub width: u32,
    pub inputs: Vec<u32>,
    pub pieces: Vec<u64>,
}
