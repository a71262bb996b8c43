//! Read an entry.

use super::FlatDescription;

/// The answer of Read. On a refusal all but the number is 0.
#[repr(C)]
#[derive(Clone, Copy, PartialEq, Eq, Debug)]
pub struct FlatEntry {
    /// 0, or the refusal
    pub number: u32,
    /// The record's kind
    pub kind: u32,
    /// The mark of the entry's own set
    pub set: u32,
    /// Where its levels begin in the lent bytes
    pub start: usize,
    /// How many bytes they take
    pub length: usize,
}

// SAFETY: declared as in the header and in the Rattle source, to which tests/declarations.rs holds it.
unsafe extern "C" {
    fn yoksimert_read(
        description: FlatDescription,
        bytes: *const u8,
        bytes_len: usize,
        byte_start: usize,
        entry: u32,
    ) -> FlatEntry;
}

/// Read an entry. Refused: 2, 8, 9.
#[inline]
#[must_use]
pub fn read(
    description: FlatDescription,
    bytes: &[u8],
    byte_start: usize,
    entry: u32,
) -> FlatEntry {
    // SAFETY: one slice, by its own pointer and length, which is read alone.
    unsafe { yoksimert_read(description, bytes.as_ptr(), bytes.len(), byte_start, entry) }
}
