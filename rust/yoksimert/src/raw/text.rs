//! Text of an entry.

use super::FlatDescription;

// SAFETY: declared as in the header and in the Rattle source, to which tests/declarations.rs holds it.
unsafe extern "C" {
    fn yoksimert_text(
        description: FlatDescription,
        bytes: *const u8,
        bytes_len: usize,
        byte_start: usize,
        entry: u32,
        out: *mut u8,
        out_len: usize,
    ) -> u32;
}

/// Text of an entry, into the first bytes of `out`; the answer is the number. Refused: 2, 3, 8, 9, 10, 7.
#[inline]
#[must_use]
pub fn text(
    description: FlatDescription,
    bytes: &[u8],
    byte_start: usize,
    entry: u32,
    out: &mut [u8],
) -> u32 {
    // SAFETY: two slices, each by its own pointer and length; the one that is altered is lent to this call alone.
    unsafe {
        yoksimert_text(
            description,
            bytes.as_ptr(),
            bytes.len(),
            byte_start,
            entry,
            out.as_mut_ptr(),
            out.len(),
        )
    }
}
