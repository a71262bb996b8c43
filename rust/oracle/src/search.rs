//! Search: what quartering finds in any list, and Look up's reply where no index falls. No document has it.

use crate::{MAXIMUM, Offset, Refusal, refuse_if};

/// Finds the entries of the greatest index not above the sought one, in a list that is taken not to fall.
///
/// # Errors
/// 2.
pub fn search(indices: &[u32], sought: u32) -> Result<Option<Offset>, Refusal> {
    refuse_if(indices.len() > MAXIMUM as usize, 2)?;
    let end = rank(indices, sought);
    let Some(&found) = indices[..end].last() else {
        return Ok(None);
    };
    let start = start(indices, end, found);
    Ok(Some(Offset {
        start,
        elements: end.saturating_sub(start) as u32,
        time_match: found == sought,
        next_index: indices.get(end).copied(),
    }))
}

/// How many indices are not above the sought one, as quartering finds it.
fn rank(indices: &[u32], sought: u32) -> usize {
    let count = |list: &[u32]| list.iter().filter(|&&index| index <= sought).count();
    if indices.len() <= 16 {
        return count(indices);
    }
    let quarter = indices.len() / 4;
    let ends = [1, 2, 3].map(|quarters| indices[quarters * quarter - 1]);
    let passed = count(&ends) * quarter;
    let left = indices.len() - 3 * quarter;
    passed + rank(&indices[passed..][..left], sought)
}

/// Where the run of an index begins that ends at `end`. It is looked for in 1, 8, 64 .. indices, the least number that has another index or
/// none in front of it up to there; if there are fewer up to there, in so many from the list's first on.
fn start(indices: &[u32], end: usize, index: u32) -> usize {
    let Some(below) = index.checked_sub(1) else {
        return 0;
    };
    let reaches = (0..).map(|turns| 8_usize.pow(turns));
    let mut enough = reaches.filter(|&n| end <= n || indices[end - n - 1] != index);
    let reach = enough.next().expect("one is as many as there are");
    let front = end.saturating_sub(reach);
    let behind = indices.len().min(front + reach);
    front + rank(&indices[front..behind], below)
}
