use crate::numbers::accepted;
use oracle::{Offset, Refusal};
use yoksimert::raw::{self, FlatOffset};

/// Finds the entries of the greatest index not above the sought one.
pub fn look_up(indices: &[u32], sought: u32) -> Result<Option<Offset>, Refusal> {
    offset(raw::look_up(indices, sought))
}

/// The answer, in which what says nothing has to be 0.
pub(super) fn offset(answer: FlatOffset) -> Result<Option<Offset>, Refusal> {
    if !answer.found {
        let rest = (answer.start, answer.elements, answer.time_match);
        assert_eq!(rest, (0, 0, false), "nothing found, and a place");
    }
    if !(answer.found && answer.has_next) {
        let rest = (answer.has_next, answer.next_index);
        assert_eq!(rest, (false, 0), "no next index, and one");
    }
    accepted(answer.number)?;
    Ok(answer.found.then_some(Offset {
        start: answer.start,
        elements: answer.elements,
        time_match: answer.time_match,
        next_index: answer.has_next.then_some(answer.next_index),
    }))
}
