//! Runs and histories (document 01, Runs and histories, for demand 3).

use crate::add_change::Change;
use crate::entry::pack;
use crate::level::{States, codes, least_set};
use crate::record::{Description, Encoding};

/// A change of a run, and whether it was accepted.
#[derive(Clone, PartialEq, Eq, Debug)]
pub struct Fed {
    /// The time index that was offered.
    pub index: u32,
    /// The change that was offered.
    pub change: Change,
    /// Whether it was accepted.
    pub accepted: bool,
}

/// The history of a run (document 01, History). A run's record is a bit vector, so a
/// real is never accepted.
pub fn history(fed: &[Fed]) -> Vec<(u32, Vec<u8>)> {
    let mut pairs: Vec<(u32, Vec<u8>)> = Vec::new();
    for change in fed.iter().filter(|change| change.accepted) {
        let Change::Text(string) = &change.change else {
            continue;
        };
        let string = string.to_ascii_lowercase();
        if pairs.last().is_none_or(|(_, last)| *last != string) {
            pairs.push((change.index, string));
        }
    }
    pairs
}

/// A history laid out: the record's description, used bytes and used indices.
///
/// # Panics
/// On a string that is not of the width or has a foreign character.
pub fn history_laid_out(
    width: u32,
    history: &[(u32, Vec<u8>)],
) -> (Description, Vec<u8>, Vec<u32>) {
    let entry = |(index, string): &(u32, Vec<u8>)| {
        let codes = codes(string).expect("no foreign character");
        (*index, least_set(&codes), codes)
    };
    let entries: Vec<(u32, States, Vec<u8>)> = history.iter().map(entry).collect();
    let largest = entries
        .iter()
        .map(|(_, own, _)| *own)
        .max()
        .unwrap_or(States::Two);
    laid_out(width, largest, entries.into_iter())
}

/// The record with these indices, own sets and codes under a largest set.
pub(crate) fn laid_out(
    width: u32,
    max_states: States,
    entries: impl Iterator<Item = (u32, States, Vec<u8>)>,
) -> (Description, Vec<u8>, Vec<u32>) {
    let mut bytes = Vec::new();
    let mut indices = Vec::new();
    for (index, own, codes) in entries {
        assert_eq!(codes.len(), width as usize, "a string of the width");
        bytes.extend(pack(width, max_states, own, &codes));
        indices.push(index);
    }
    let encoding = Encoding::BitVector { width, max_states };
    (Description::of(encoding, &indices), bytes, indices)
}
