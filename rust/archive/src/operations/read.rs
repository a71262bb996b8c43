use crate::numbers::{accepted, encode, kind, states};
use oracle::{Description, Entry, Refusal};
use yoksimert::raw;

/// Reads an entry.
pub fn read(d: Description, bytes: &[u8], byte_start: usize, entry: u32) -> Result<Entry, Refusal> {
    let answer = raw::read(encode(d), bytes, byte_start, entry);
    if answer.number != 0 {
        let rest = (answer.kind, answer.set, answer.start, answer.length);
        assert_eq!(rest, (0, 0, 0, 0), "refused, and an entry");
    }
    accepted(answer.number)?;
    Ok(Entry {
        kind: kind(answer.kind),
        states: states(answer.set),
        part: answer.start..answer.start + answer.length,
    })
}
