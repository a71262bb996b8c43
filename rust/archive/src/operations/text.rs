use crate::numbers::{accepted, encode};
use oracle::{Description, Refusal};
use yoksimert::raw;

/// Writes the string of an entry into the lent text.
pub fn text(
    d: Description,
    bytes: &[u8],
    byte_start: usize,
    entry: u32,
    out: &mut [u8],
) -> Result<(), Refusal> {
    accepted(raw::text(encode(d), bytes, byte_start, entry, out))
}
