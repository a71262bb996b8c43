//! Add a change (document 01).

use crate::entry::{pack, widen};
use crate::level::{codes, least_set};
use crate::record::{Description, Encoding, Extent};
use crate::{Refusal, refuse_if};

/// What is offered to a record.
#[derive(Clone, PartialEq, Eq, Debug)]
pub enum Change {
    /// A string of characters.
    Text(Vec<u8>),
    /// A real, as its 64 bits.
    Real(u64),
}

/// Adds a change and hands back the next description.
///
/// # Errors
/// 2, 3, 4, 5, 6, 7.
pub fn add_change(
    d: Description,
    bytes: &mut [u8],
    byte_start: usize,
    indices: &mut [u32],
    index_start: usize,
    index: u32,
    change: &Change,
) -> Result<Description, Refusal> {
    let lent_bytes = Extent::new(bytes, byte_start);
    let lent_indices = Extent::new(indices, index_start);
    refuse_if(!d.holds(lent_bytes, lent_indices), 2)?;
    let (encoding, entry) = new_entry(d.encoding, change)?;
    let count = d.count as usize;
    let last_index = indices[index_start..][..count].last();
    refuse_if(last_index.is_some_and(|&last| index < last), 6)?;

    let used = &bytes[byte_start..][..count * d.encoding.entry_size()];
    let repeat = is_repeat(d, used, encoding, &entry);
    let next = Description::counting(encoding, d.count + u32::from(!repeat));
    refuse_if(!next.holds(lent_bytes, lent_indices), 7)?;

    if encoding != d.encoding {
        let widened = widened_entries(d.encoding, encoding, used);
        bytes[byte_start..][..widened.len()].copy_from_slice(&widened);
    }
    if !repeat {
        let size = encoding.entry_size();
        bytes[byte_start + count * size..][..size].copy_from_slice(&entry);
        indices[index_start + count] = index;
    }
    Ok(next)
}

/// The encoding after a change, and the entry of the change under it: 3, 4, 5.
fn new_entry(encoding: Encoding, change: &Change) -> Result<(Encoding, Vec<u8>), Refusal> {
    match (encoding, change) {
        (Encoding::Real, Change::Real(bits)) => Ok((encoding, bits.to_le_bytes().to_vec())),
        (Encoding::Real, Change::Text(_)) | (_, Change::Real(_)) => Err(Refusal(3)),
        (Encoding::Event, Change::Text(string)) => {
            refuse_if(string.len() > 1, 4)?;
            Ok((encoding, Vec::new()))
        }
        (Encoding::BitVector { width, max_states }, Change::Text(string)) => {
            refuse_if(string.len() != width as usize, 4)?;
            let codes = codes(string).ok_or(Refusal(5))?;
            let own = least_set(&codes);
            let max_states = max_states.max(own);
            let entry = pack(width, max_states, own, &codes);
            Ok((Encoding::BitVector { width, max_states }, entry))
        }
    }
}

/// Whether a bit-vector or real entry has the bytes of the last one, as the new encoding lays
/// that out.
fn is_repeat(d: Description, used: &[u8], encoding: Encoding, entry: &[u8]) -> bool {
    if d.count == 0 || encoding == Encoding::Event {
        return false;
    }
    let last = &used[used.len() - d.encoding.entry_size()..];
    widened_entries(d.encoding, encoding, last) == entry
}

/// The entries as the new encoding lays them out.
fn widened_entries(old: Encoding, new: Encoding, entries: &[u8]) -> Vec<u8> {
    match (old, new) {
        (
            Encoding::BitVector { width, max_states },
            Encoding::BitVector {
                max_states: larger, ..
            },
        ) => entries
            .chunks(old.entry_size())
            .flat_map(|entry| widen(width, max_states, larger, entry))
            .collect(),
        _ => entries.to_vec(),
    }
}
