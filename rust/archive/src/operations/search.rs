use super::look_up::offset;
use oracle::{Offset, Refusal};
use yoksimert::raw;

/// The same in a list that is known not to fall, by quartering.
pub fn search(indices: &[u32], sought: u32) -> Result<Option<Offset>, Refusal> {
    offset(raw::search(indices, sought))
}
