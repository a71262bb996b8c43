//! Compare.

use super::FlatDescription;

/// The answer of Compare.
#[repr(C)]
#[derive(Clone, Copy, PartialEq, Eq, Debug)]
pub struct FlatEqual {
    /// 0, or the refusal
    pub number: u32,
    /// On a refusal false
    pub equal: bool,
}

/// A record by numbers, with the slices that it is lent.
#[derive(Clone, Copy, Debug)]
pub struct FlatRecord<'a> {
    /// Kind, width, largest set and count
    pub description: FlatDescription,
    /// The lent bytes
    pub bytes: &'a [u8],
    /// Where the entries begin
    pub byte_start: usize,
    /// The lent time indices
    pub indices: &'a [u32],
    /// Where the record's indices begin
    pub index_start: usize,
}

// SAFETY: declared as in the header and in the Rattle source, to which tests/declarations.rs holds it.
unsafe extern "C" {
    fn yoksimert_compare(
        a: FlatDescription,
        a_bytes: *const u8,
        a_bytes_len: usize,
        a_byte_start: usize,
        a_indices: *const u32,
        a_indices_len: usize,
        a_index_start: usize,
        b: FlatDescription,
        b_bytes: *const u8,
        b_bytes_len: usize,
        b_byte_start: usize,
        b_indices: *const u32,
        b_indices_len: usize,
        b_index_start: usize,
    ) -> FlatEqual;
}

/// Compare: whether two records have equal time indices and values. Refused: 2, 9, 10.
#[inline]
#[must_use]
pub fn compare(a: FlatRecord, b: FlatRecord) -> FlatEqual {
    // SAFETY: four slices, each by its own pointer and length, which are read alone.
    unsafe {
        yoksimert_compare(
            a.description,
            a.bytes.as_ptr(),
            a.bytes.len(),
            a.byte_start,
            a.indices.as_ptr(),
            a.indices.len(),
            a.index_start,
            b.description,
            b.bytes.as_ptr(),
            b.bytes.len(),
            b.byte_start,
            b.indices.as_ptr(),
            b.indices.len(),
            b.index_start,
        )
    }
}
