//! Smaller calls that still disagree, and smaller records.

use crate::operation::Operation;
use crate::record::{LentRecord, entry_size};
use oracle::Encoding;

/// So many smaller calls are tried at most.
const TRIES: usize = 2_000;

/// A smaller call for which `fails` still holds: fewer entries, narrower ones, less filler.
pub fn smallest<O: Operation>(call: &O, fails: impl Fn(&O) -> bool) -> O {
    let mut least = call.clone();
    let mut tries = 0;
    let mut fails = |smaller: &O| {
        tries += 1;
        tries <= TRIES && fails(smaller)
    };
    while let Some(smaller) = least.smaller().into_iter().find(&mut fails) {
        least = smaller;
    }
    least
}

/// The record with fewer entries or less around them, and narrower.
pub fn records(record: &LentRecord) -> Vec<LentRecord> {
    let mut out = fewer(record);
    out.extend(STRIPS.iter().filter_map(|&by| narrower(record, by)));
    out
}

/// The record without what lies before it, with less behind it, without its first or last half, and without its
/// first or last entry.
pub fn fewer(record: &LentRecord) -> Vec<LentRecord> {
    let count = record.description.count;
    let mut out: Vec<LentRecord> = bare(record).into_iter().chain(shorter(record)).collect();
    for less in [count / 2, 1] {
        if less > 0 && less <= count {
            let mut last = record.clone();
            last.description.count -= less;
            let mut first = last.clone();
            first.byte_start += less as usize * entry_size(record.description.encoding);
            if !record.indices.is_empty() {
                first.index_start += less as usize;
            }
            out.extend([last, first]);
        }
    }
    out
}

/// Half of the bytes and indices that lie behind the used part.
fn shorter(record: &LentRecord) -> Option<LentRecord> {
    let count = record.description.count as usize;
    let half = |start: usize, used: usize, len: usize| {
        let end = start.checked_add(used).filter(|&end| end <= len)?;
        Some(end + (len - end) / 2)
    };
    let size = entry_size(record.description.encoding);
    let mut out = record.clone();
    out.bytes
        .truncate(half(record.byte_start, count * size, record.bytes.len())?);
    out.indices
        .truncate(half(record.index_start, count, record.indices.len()).unwrap_or(0));
    (out != *record).then_some(out)
}

fn bare(record: &LentRecord) -> Option<LentRecord> {
    let bytes = record.bytes.get(record.byte_start..)?;
    let indices = record.indices.get(record.index_start..)?;
    let out = LentRecord::new(record.description, bytes, indices);
    (out != *record).then_some(out)
}

/// By how many wires a record is made narrower: whether there is a meta byte goes by fours.
pub const STRIPS: [u32; 7] = [2_048, 128, 32, 8, 4, 2, 1];

/// The record so many wires narrower: each entry keeps its mark and its last bytes.
pub fn narrower(record: &LentRecord, by: u32) -> Option<LentRecord> {
    let Encoding::BitVector { width, max_states } = record.description.encoding else {
        return None;
    };
    let encoding = Encoding::BitVector {
        width: width.checked_sub(by).filter(|&width| width > 0)?,
        max_states,
    };
    let (size, kept) = (
        entry_size(record.description.encoding),
        entry_size(encoding),
    );
    let from_start = record.bytes.get(record.byte_start..)?;
    let (used, behind) = from_start.split_at_checked(record.description.count as usize * size)?;
    let mut bytes = Vec::new();
    for entry in used.chunks(size) {
        let start = bytes.len();
        bytes.extend(&entry[size - kept..]);
        bytes[start] = bytes[start] & 0x3f | entry[0] & 0xc0;
    }
    bytes.extend(behind);
    let mut out = LentRecord {
        bytes,
        byte_start: 0,
        ..record.clone()
    };
    out.description.encoding = encoding;
    Some(out)
}
