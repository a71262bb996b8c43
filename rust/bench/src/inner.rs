//! The functions of the archive `libbench.a`, made safe: each wrapper tests what the Rattle function requires.

use oracle::{MAXIMUM, States};

/// What a search finds.
#[repr(C)]
pub struct Place {
    pub start: usize,
    pub elements: u32,
    pub time_match: bool,
    pub has_next: bool,
    pub next_index: u32,
}

mod c {
    use super::Place;

    // SAFETY: the declarations are those of the Rattle source crates/bench/src/lib.rt, which rust/yoksimert/tests/declarations.rs compares.
    unsafe extern "C" {
        pub fn bench_least(value: *const u8, value_len: usize) -> u32;
        pub fn bench_pack(
            mark: u32,
            value: *const u8,
            value_len: usize,
            out: *mut u8,
            out_len: usize,
        ) -> usize;
        pub fn bench_equals(
            mark: u32,
            value: *const u8,
            value_len: usize,
            bytes: *const u8,
            bytes_len: usize,
        ) -> u32;
        pub fn bench_expand(
            from: u32,
            to: u32,
            data: *mut u8,
            data_len: usize,
            entries: usize,
            bits: u32,
        );
        pub fn bench_search(indices: *const u32, indices_len: usize, needle: u32) -> Place;
        pub fn bench_falls(indices: *const u32, indices_len: usize) -> u32;
    }
}

/// The mark of a string's least set, 3 with a foreign character.
pub fn least(value: &[u8]) -> u32 {
    // SAFETY: a slice passes as its pointer and its length, and the function requires nothing.
    unsafe { c::bench_least(value.as_ptr(), value.len()) }
}

/// A string that can be packed under a set: tested once, so that the packer alone is timed.
pub struct Packable<'a> {
    states: States,
    value: &'a [u8],
}

impl<'a> Packable<'a> {
    pub fn new(states: States, value: &'a [u8]) -> Self {
        assert!(value.len() <= 4096 && least(value) <= u32::from(states.mark()));
        Self { states, value }
    }

    /// Packs into `out` and gives the number of bytes.
    pub fn pack(&self, out: &mut [u8]) -> usize {
        assert!(out.len() >= 2048);
        let mark = u32::from(self.states.mark());
        // SAFETY: `new` tested the string and the length, and 4,096 levels take at most 2,048 bytes.
        unsafe {
            c::bench_pack(
                mark,
                self.value.as_ptr(),
                self.value.len(),
                out.as_mut_ptr(),
                out.len(),
            )
        }
    }

    /// Whether `bytes` starts with what `pack` would store.
    pub fn equals(&self, bytes: &[u8]) -> bool {
        assert!(bytes.len() >= 2048);
        let mark = u32::from(self.states.mark());
        // SAFETY: as for `pack`.
        let equal = unsafe {
            c::bench_equals(
                mark,
                self.value.as_ptr(),
                self.value.len(),
                bytes.as_ptr(),
                bytes.len(),
            )
        };
        equal == 1
    }
}

/// The bytes of an entry (document 01, "An entry").
pub fn entry_size(width: u32, states: States) -> usize {
    let per_byte = 8 / states.bits();
    let meta = states != States::Two && width.is_multiple_of(per_byte);
    width.div_ceil(per_byte) as usize + usize::from(meta)
}

/// Widens the entries at the front of `data`, in place.
pub fn expand(from: States, to: States, data: &mut [u8], entries: usize, width: u32) {
    assert!((1..=4096).contains(&width) && from <= to && entries <= 1_048_576);
    assert!(entries * entry_size(width, to) <= data.len());
    let (from, to) = (u32::from(from.mark()), u32::from(to.mark()));
    // SAFETY: the width, the order of the sets, the count and the room are tested above.
    unsafe { c::bench_expand(from, to, data.as_mut_ptr(), data.len(), entries, width) }
}

/// Whether an index is below the one before it.
pub fn falls(indices: &[u32]) -> bool {
    // SAFETY: the function requires nothing.
    unsafe { c::bench_falls(indices.as_ptr(), indices.len()) == 1 }
}

/// Indices that don't fall, not more than the maximum: tested once, so that the search alone is timed.
pub struct Rising<'a> {
    indices: &'a [u32],
    first: u32,
}

impl<'a> Rising<'a> {
    pub fn new(indices: &'a [u32]) -> Self {
        assert!(indices.is_sorted() && indices.len() <= MAXIMUM as usize);
        Self {
            indices,
            first: *indices.first().expect("there is an index"),
        }
    }

    /// The entries that carry the greatest index not above the needle.
    pub fn search(&self, needle: u32) -> Place {
        assert!(self.first <= needle);
        // SAFETY: `new` tested that there is an index, that there are not too many and that none falls, and the first isn't above the needle.
        unsafe { c::bench_search(self.indices.as_ptr(), self.indices.len(), needle) }
    }
}
