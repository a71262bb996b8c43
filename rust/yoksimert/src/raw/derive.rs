//! Derive.

use super::{FlatDerivation, FlatDescription, FlatMade};

/// An input record of Derive, and where it starts in the slices that all inputs share.
#[repr(C)]
#[derive(Clone, Copy, PartialEq, Eq, Debug)]
pub struct FlatInput {
    /// Kind, width, largest set and count
    pub description: FlatDescription,
    /// Where the entries begin
    pub byte_start: usize,
    /// Where the indices begin
    pub index_start: usize,
}

/// The input records of Derive, in the order of the derivation's names.
#[repr(C)]
#[derive(Clone, Copy, PartialEq, Eq, Debug)]
pub struct FlatInputs {
    /// How many there are
    pub count: u32,
    /// Those from `count` on are not looked at
    pub inputs: [FlatInput; 8],
}

// SAFETY: declared as in the header and in the Rattle source, to which tests/declarations.rs holds it.
unsafe extern "C" {
    fn yoksimert_derive(
        derivation: FlatDerivation,
        names: *const [u32; 8],
        pieces: *const [u64; 64],
        inputs: FlatInputs,
        bytes: *const u8,
        bytes_len: usize,
        indices: *const u32,
        indices_len: usize,
        out_bytes: *mut u8,
        out_bytes_len: usize,
        out_indices: *mut u32,
        out_indices_len: usize,
    ) -> FlatMade;
}

/// Derive: the record of a derivation of bit vectors, into the first bytes and indices of the output slices. Refused: 2, 14, 15, 11, 9,
/// 10, 7.
#[inline]
#[must_use]
#[expect(
    clippy::too_many_arguments,
    reason = "a derivation with its two arrays, the inputs, two lent slices and two output slices"
)]
pub fn derive(
    derivation: FlatDerivation,
    names: &[u32; 8],
    pieces: &[u64; 64],
    inputs: FlatInputs,
    bytes: &[u8],
    indices: &[u32],
    out_bytes: &mut [u8],
    out_indices: &mut [u32],
) -> FlatMade {
    // SAFETY: two arrays of the lengths that the function takes, and four slices, each by its own pointer and length; the two that are
    // altered are lent to this call alone.
    unsafe {
        yoksimert_derive(
            derivation,
            names,
            pieces,
            inputs,
            bytes.as_ptr(),
            bytes.len(),
            indices.as_ptr(),
            indices.len(),
            out_bytes.as_mut_ptr(),
            out_bytes.len(),
            out_indices.as_mut_ptr(),
            out_indices.len(),
        )
    }
}
