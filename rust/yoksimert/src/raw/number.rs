//! Numbers: the levels of an entry as one.

use super::FlatDescription;

/// The answer without a sign, binary or packed decimal.
#[repr(C)]
#[derive(Clone, Copy, PartialEq, Eq, Debug)]
pub struct FlatNumber {
    /// 0, or the refusal
    pub number: u32,
    /// What the levels stand for; on a refusal 0
    pub value: u64,
}

/// The answer with a sign.
#[repr(C)]
#[derive(Clone, Copy, PartialEq, Eq, Debug)]
pub struct FlatSigned {
    /// 0, or the refusal
    pub number: u32,
    /// What the levels stand for; on a refusal 0
    pub value: i64,
}

// SAFETY: declared as in the header and in the Rattle source, to which tests/declarations.rs holds it.
unsafe extern "C" {
    fn yoksimert_unsigned(
        description: FlatDescription,
        bytes: *const u8,
        bytes_len: usize,
        byte_start: usize,
        entry: u32,
    ) -> FlatNumber;

    fn yoksimert_signed(
        description: FlatDescription,
        bytes: *const u8,
        bytes_len: usize,
        byte_start: usize,
        entry: u32,
    ) -> FlatSigned;

    fn yoksimert_decimal(
        description: FlatDescription,
        bytes: *const u8,
        bytes_len: usize,
        byte_start: usize,
        entry: u32,
    ) -> FlatNumber;
}

/// An entry of width 1 to 64 as a binary number without a sign, the first level the highest. Refused: 2, 3, 8, 9, 10, 16, 17.
#[inline]
#[must_use]
pub fn unsigned(
    description: FlatDescription,
    bytes: &[u8],
    byte_start: usize,
    entry: u32,
) -> FlatNumber {
    // SAFETY: one slice, by its own pointer and length, which is read alone.
    unsafe { yoksimert_unsigned(description, bytes.as_ptr(), bytes.len(), byte_start, entry) }
}

/// The same in two's complement: the first level says whether the number is below 0. Refused: 2, 3, 8, 9, 10, 16, 17.
#[inline]
#[must_use]
pub fn signed(
    description: FlatDescription,
    bytes: &[u8],
    byte_start: usize,
    entry: u32,
) -> FlatSigned {
    // SAFETY: one slice, by its own pointer and length, which is read alone.
    unsafe { yoksimert_signed(description, bytes.as_ptr(), bytes.len(), byte_start, entry) }
}

/// The same in packed decimal: each four levels are a digit, the first the highest. Refused: 2, 3, 8, 9, 10, 16, 17, 18.
#[inline]
#[must_use]
pub fn decimal(
    description: FlatDescription,
    bytes: &[u8],
    byte_start: usize,
    entry: u32,
) -> FlatNumber {
    // SAFETY: one slice, by its own pointer and length, which is read alone.
    unsafe { yoksimert_decimal(description, bytes.as_ptr(), bytes.len(), byte_start, entry) }
}
