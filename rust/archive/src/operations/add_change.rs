use crate::numbers::{encode, next_of};
use oracle::{Change, Description, Refusal};
use yoksimert::raw;

/// Adds a change and hands back the next description.
pub fn add_change(
    d: Description,
    bytes: &mut [u8],
    byte_start: usize,
    indices: &mut [u32],
    index_start: usize,
    index: u32,
    change: &Change,
) -> Result<Description, Refusal> {
    let flat = encode(d);
    let mut lent = flat;
    let recorder = &mut lent;
    let number = match change {
        Change::Text(string) => raw::recorder_add_change(
            recorder,
            bytes,
            byte_start,
            indices,
            index_start,
            index,
            string,
        ),
        Change::Real(bits) => raw::recorder_add_real(
            recorder,
            bytes,
            byte_start,
            indices,
            index_start,
            index,
            *bits,
        ),
    };
    next_of(number, flat, lent)
}
