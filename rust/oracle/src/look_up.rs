//! Look up (document 01, with document 02's E2).

use crate::{MAXIMUM, Refusal, refuse_if};

/// The answer of Look up.
#[derive(Clone, Copy, PartialEq, Eq, Debug)]
pub struct Offset {
    /// The first entry that carries the greatest index not above the sought one.
    pub start: usize,
    /// The number of entries from there on that carry the same index.
    pub elements: u32,
    /// Whether that index equals the sought one.
    pub time_match: bool,
    /// The next greater index.
    pub next_index: Option<u32>,
}

/// Finds the entries of the greatest index not above the sought one (document 01, Look up).
///
/// # Errors
/// 2, 11.
pub fn look_up(indices: &[u32], sought: u32) -> Result<Option<Offset>, Refusal> {
    refuse_if(indices.len() > MAXIMUM as usize, 2)?;
    refuse_if(falls(indices), 11)?;
    let not_above = indices.iter().copied().filter(|&index| index <= sought);
    let Some(found) = not_above.max() else {
        return Ok(None);
    };
    let before = indices.iter().filter(|&&index| index < found).count();
    let same = indices.iter().filter(|&&index| index == found).count();
    Ok(Some(Offset {
        start: before,
        elements: same as u32,
        time_match: found == sought,
        next_index: indices.iter().copied().filter(|&index| index > found).min(),
    }))
}

/// Whether an index is below the one before it.
pub(crate) fn falls(indices: &[u32]) -> bool {
    indices.windows(2).any(|pair| pair[1] < pair[0])
}
