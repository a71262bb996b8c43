//! A call through wellen, in its domain, brought into the form of an outcome.

use crate::operation::{Operation, Outcome};
use oracle::Refusal;
use reference::Refused;

/// What wellen says of a call.
#[derive(Clone, PartialEq, Eq, Debug)]
pub enum Verdict<Answer> {
    Accepted(Outcome<Answer>),
    Refused,
    /// wellen accepts, and what it leaves exceeds a lent slice or a limit that document 01 adds: the number that
    /// document 01 has for this.
    Beyond(Refusal),
}

impl<Answer: PartialEq> Verdict<Answer> {
    /// An answer of an operation that is lent no slice to alter.
    pub fn accepted(answer: Answer) -> Self {
        Verdict::Accepted(Outcome {
            answer: Ok(answer),
            bytes: Vec::new(),
            indices: Vec::new(),
        })
    }

    /// Whether another implementation's outcome of the same call is the one that follows from this verdict.
    pub fn agrees<O>(&self, call: &O, outcome: &Outcome<Answer>) -> bool
    where
        O: Operation<Answer = Answer>,
    {
        let (bytes, indices) = call.alterable();
        let unaltered = outcome.bytes == bytes && outcome.indices == indices;
        match self {
            Verdict::Accepted(expected) => is_wellens::<O>(outcome, expected),
            Verdict::Refused => outcome.answer.is_err() && unaltered,
            Verdict::Beyond(number) => outcome.answer.as_ref().err() == Some(number) && unaltered,
        }
    }
}

fn is_wellens<O: Operation>(outcome: &Outcome<O::Answer>, wellens: &Outcome<O::Answer>) -> bool {
    let answers = match (&outcome.answer, &wellens.answer) {
        (Ok(answer), Ok(wellens)) => O::is_wellens(answer, wellens),
        (answer, wellens) => answer == wellens,
    };
    answers && outcome.bytes == wellens.bytes && outcome.indices == wellens.indices
}

/// The verdict on a call of the domain.
pub fn verdict<O: Operation>(call: &O) -> Verdict<O::Answer> {
    call.by_wellen().unwrap_or_else(|Refused| Verdict::Refused)
}

#[cfg(wellen)]
pub use present::{stored, whole, without_indices};

#[cfg(wellen)]
mod present {
    use super::Verdict;
    use crate::operation::Outcome;
    use crate::record::LentRecord;
    use oracle::{Description, MAXIMUM, Refusal};
    use reference::{Record, Refused, Used};

    /// "7: the record with this change, repeats dropped, exceeds a slice or the maximum"; else the slices with the
    /// record stored from their starts.
    pub fn stored(
        next: &Used,
        bytes: (&[u8], usize),
        indices: (&[u32], usize),
    ) -> Verdict<Description> {
        let (mut out_bytes, mut out_indices) = (bytes.0.to_vec(), indices.0.to_vec());
        let byte_place = out_bytes[bytes.1..].get_mut(..next.bytes.len());
        let index_place = out_indices[indices.1..].get_mut(..next.indices.len());
        let (Some(byte_place), Some(index_place)) = (byte_place, index_place) else {
            return Verdict::Beyond(Refusal(7));
        };
        if next.description.count > MAXIMUM {
            return Verdict::Beyond(Refusal(7));
        }
        byte_place.copy_from_slice(&next.bytes);
        index_place.copy_from_slice(&next.indices);
        Verdict::Accepted(Outcome {
            answer: Ok(next.description),
            bytes: out_bytes,
            indices: out_indices,
        })
    }

    /// A record as Read and Text are lent it.
    pub fn without_indices(record: &LentRecord) -> Result<Record, Refused> {
        let indices = vec![0; record.description.count as usize];
        Record::new(record.description, record.used_bytes(), &indices)
    }

    pub fn whole(record: &LentRecord) -> Result<Record, Refused> {
        Record::new(
            record.description,
            record.used_bytes(),
            record.used_indices(),
        )
    }
}
