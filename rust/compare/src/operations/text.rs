//! Text of an entry. Its calls are made beside those of Read.

use crate::domain;
use crate::operation::{Operation, Outcome, Slices};
use crate::record::LentRecord;
use crate::shrink;
use crate::stored::{Fields, Module, Reader, terms};
use oracle::Refusal;
#[cfg(wellen)]
use {
    crate::by_wellen::{Verdict, without_indices},
    reference::Refused,
};

#[derive(Clone, PartialEq, Eq, Debug)]
pub struct Text {
    pub record: LentRecord,
    pub entry: u32,
    pub out: Vec<u8>,
}

impl Operation for Text {
    type Answer = ();

    const NAMES: &'static [&'static str] = &["text"];
    const NUMBERS: &'static [u8] = &[2, 3, 8, 9, 10, 7];
    const DEFINITIONS: &'static [Module] = &[];

    fn alterable(&self) -> (&[u8], &[u32]) {
        (&self.out, &[])
    }

    fn by_oracle(&self, out: Slices) -> Result<(), Refusal> {
        let (record, start) = (&self.record, self.record.byte_start);
        oracle::text(
            record.description,
            &record.bytes,
            start,
            self.entry,
            out.bytes,
        )
    }

    fn by_archive(&self, out: Slices) -> Result<(), Refusal> {
        let (record, start) = (&self.record, self.record.byte_start);
        archive::text(
            record.description,
            &record.bytes,
            start,
            self.entry,
            out.bytes,
        )
    }

    fn is_in_domain(&self) -> bool {
        domain::bytes_lent(&self.record) && !domain::read_by_the_rust(&self.record, self.entry)
    }

    /// "a real or event is 3"; "7: the lent text slice is shorter than the width."
    #[cfg(wellen)]
    fn by_wellen(&self) -> Result<Verdict<()>, Refused> {
        let text = without_indices(&self.record)?.text(self.entry)?;
        let string = text.ok_or(Refused)?;
        let mut bytes = self.out.clone();
        let Some(place) = bytes.get_mut(..string.len()) else {
            return Ok(Verdict::Beyond(Refusal(7)));
        };
        place.copy_from_slice(string.as_bytes());
        Ok(Verdict::Accepted(Outcome {
            answer: Ok(()),
            bytes,
            indices: Vec::new(),
        }))
    }

    fn smaller(&self) -> Vec<Self> {
        let with = |record| Text {
            record,
            ..self.clone()
        };
        shrink::records(&self.record)
            .into_iter()
            .map(with)
            .collect()
    }

    fn put(&self, out: &mut Fields) {
        out.bytes_of(&self.record);
        out.push(self.entry);
        out.hexadecimal(&self.out);
    }

    fn put_outcome(&self, outcome: &Outcome<()>, out: &mut Fields) {
        out.hexadecimal(&outcome.bytes);
    }

    fn parse(_: &str, fields: &mut Reader) -> Result<Self, String> {
        Ok(Text {
            record: fields.bytes_of()?,
            entry: fields.number()?,
            out: fields.bytes()?,
        })
    }

    fn equation(&self, outcome: &Outcome<()>) -> Option<String> {
        let (record, out) = (terms::bytes_of(&self.record), terms::list(&self.out));
        let call = format!("read_text {record} {} {out}", self.entry);
        let left = terms::list(&outcome.bytes);
        Some(terms::leaves("(List ℕ)", &call, outcome, &left))
    }
}
