use crate::numbers::{accepted, encode};
use oracle::{Record, Refusal};
use yoksimert::raw::{self, FlatRecord};

/// Whether both lists of index and value agree.
pub fn compare(a: &Record, b: &Record) -> Result<bool, Refusal> {
    let answer = raw::compare(flat(a), flat(b));
    if answer.number != 0 {
        assert!(!answer.equal, "refused, and equal");
    }
    accepted(answer.number)?;
    Ok(answer.equal)
}

fn flat<'a>(record: &Record<'a>) -> FlatRecord<'a> {
    FlatRecord {
        description: encode(record.description),
        bytes: record.bytes,
        byte_start: record.byte_start,
        indices: record.indices,
        index_start: record.index_start,
    }
}
