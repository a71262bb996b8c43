//! Look up.

/// The answer of Look up. Where nothing is found, all but the number is 0.
#[repr(C)]
#[derive(Clone, Copy, PartialEq, Eq, Debug)]
pub struct FlatOffset {
    /// 0, or the refusal
    pub number: u32,
    /// Whether there is an index not above the sought one
    pub found: bool,
    /// The first entry of the greatest such index
    pub start: usize,
    /// How many entries carry it
    pub elements: u32,
    /// Whether it is the sought one
    pub time_match: bool,
    /// Whether there is a greater index
    pub has_next: bool,
    /// The next greater index, or 0
    pub next_index: u32,
}

// SAFETY: declared as in the header and in the Rattle source, to which tests/declarations.rs holds it.
unsafe extern "C" {
    fn yoksimert_look_up(indices: *const u32, indices_len: usize, sought: u32) -> FlatOffset;
}

/// Look up: the entries that hold at a time index. Refused: 2, 11.
#[inline]
#[must_use]
pub fn look_up(indices: &[u32], sought: u32) -> FlatOffset {
    // SAFETY: one slice, by its own pointer and length, which is read alone.
    unsafe { yoksimert_look_up(indices.as_ptr(), indices.len(), sought) }
}
