//! Add a change.

use super::FlatDescription;

// SAFETY: declared as in the header and in the Rattle source, to which tests/declarations.rs holds it.
unsafe extern "C" {
    fn yoksimert_recorder_add_change(
        recorder: *mut FlatDescription,
        bytes: *mut u8,
        bytes_len: usize,
        byte_start: usize,
        indices: *mut u32,
        indices_len: usize,
        index_start: usize,
        index: u32,
        value: *const u8,
        value_len: usize,
    ) -> u32;

    fn yoksimert_recorder_add_real(
        recorder: *mut FlatDescription,
        bytes: *mut u8,
        bytes_len: usize,
        byte_start: usize,
        indices: *mut u32,
        indices_len: usize,
        index_start: usize,
        index: u32,
        bits: u64,
    ) -> u32;
}

/// Add a change to a recorder that is lent: a string; the answer is the number. Refused: 2, 3, 4, 5, 6, 7.
#[inline]
#[must_use]
pub fn recorder_add_change(
    recorder: &mut FlatDescription,
    bytes: &mut [u8],
    byte_start: usize,
    indices: &mut [u32],
    index_start: usize,
    index: u32,
    value: &[u8],
) -> u32 {
    // SAFETY: a description, and three slices, each by its own pointer and length; what is altered is lent to this call alone.
    unsafe {
        yoksimert_recorder_add_change(
            recorder,
            bytes.as_mut_ptr(),
            bytes.len(),
            byte_start,
            indices.as_mut_ptr(),
            indices.len(),
            index_start,
            index,
            value.as_ptr(),
            value.len(),
        )
    }
}

/// Add a change to a recorder that is lent: a real, by the 64 bits of its double; the answer is the number. Refused: 2, 3, 6, 7.
#[inline]
#[must_use]
pub fn recorder_add_real(
    recorder: &mut FlatDescription,
    bytes: &mut [u8],
    byte_start: usize,
    indices: &mut [u32],
    index_start: usize,
    index: u32,
    bits: u64,
) -> u32 {
    // SAFETY: a description, and two slices, each by its own pointer and length, lent to this call alone.
    unsafe {
        yoksimert_recorder_add_real(
            recorder,
            bytes.as_mut_ptr(),
            bytes.len(),
            byte_start,
            indices.as_mut_ptr(),
            indices.len(),
            index_start,
            index,
            bits,
        )
    }
}
