//! Search.

use super::FlatOffset;

// SAFETY: declared as in the header and in the Rattle source, to which tests/declarations.rs holds it.
unsafe extern "C" {
    fn yoksimert_search(indices: *const u32, indices_len: usize, sought: u32) -> FlatOffset;
}

/// Search: Look up's answer where no index falls, by quartering. Where one falls, some answer. Refused: 2.
#[inline]
#[must_use]
pub fn search(indices: &[u32], sought: u32) -> FlatOffset {
    // SAFETY: one slice, by its own pointer and length, which is read alone.
    unsafe { yoksimert_search(indices.as_ptr(), indices.len(), sought) }
}
