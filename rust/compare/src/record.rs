//! A record as a call is lent it, and the bytes that its entries take.

use oracle::{Description, Encoding, Record, States};
use reference::Used;

pub const SETS: [States; 3] = [States::Two, States::Four, States::Nine];

/// A description and the slices lent with it, with what lies around the used part. Reading and text are lent no
/// indices: theirs are empty.
#[derive(Clone, PartialEq, Eq, Debug)]
pub struct LentRecord {
    pub description: Description,
    pub bytes: Vec<u8>,
    pub byte_start: usize,
    pub indices: Vec<u32>,
    pub index_start: usize,
}

impl LentRecord {
    /// Slices that the used part begins with.
    pub fn new(description: Description, bytes: &[u8], indices: &[u32]) -> Self {
        Self {
            description,
            bytes: bytes.to_vec(),
            byte_start: 0,
            indices: indices.to_vec(),
            index_start: 0,
        }
    }

    pub fn without_indices(self) -> Self {
        Self {
            indices: Vec::new(),
            index_start: 0,
            ..self
        }
    }

    pub fn as_record(&self) -> Record<'_> {
        Record {
            description: self.description,
            bytes: &self.bytes,
            byte_start: self.byte_start,
            indices: &self.indices,
            index_start: self.index_start,
        }
    }

    pub fn used_bytes(&self) -> &[u8] {
        let size = entry_size(self.description.encoding);
        &self.bytes[self.byte_start..][..self.description.count as usize * size]
    }

    pub fn used_indices(&self) -> &[u32] {
        &self.indices[self.index_start..][..self.description.count as usize]
    }

    pub fn entry(&self, entry: u32) -> &[u8] {
        let size = entry_size(self.description.encoding);
        &self.bytes[self.byte_start + entry as usize * size..][..size]
    }
}

/// The record at the front of slices.
pub fn cut(description: Description, bytes: &[u8], indices: &[u32]) -> Used {
    let count = description.count as usize;
    Used {
        description,
        bytes: bytes[..count * entry_size(description.encoding)].to_vec(),
        indices: indices[..count].to_vec(),
    }
}

/// The bytes of one entry (document 01, An entry): L, and one more with a meta byte.
pub fn entry_size(encoding: Encoding) -> usize {
    match encoding {
        Encoding::Event => 0,
        Encoding::Real => 8,
        Encoding::BitVector { width, max_states } => {
            level_bytes(width, max_states) + usize::from(has_meta_byte(width, max_states))
        }
    }
}

/// The number L of bytes that a set needs.
pub fn level_bytes(width: u32, states: States) -> usize {
    let per_byte = 8 / states.bits();
    width.div_ceil(per_byte) as usize
}

fn has_meta_byte(width: u32, states: States) -> bool {
    states != States::Two && width.is_multiple_of(8 / states.bits())
}
