//! Add a change.

use crate::domain;
use crate::generate::{Generator, Receiver};
use crate::operation::{Asked, Operation, Outcome, Slices};
use crate::record::{LentRecord, cut};
use crate::shrink::{STRIPS, fewer, narrower};
use crate::stored::{Fields, Module, Reader, terms};
use oracle::{Change, Description, Encoding, Fed, Refusal};
use reference::Used;
#[cfg(wellen)]
use {
    crate::by_wellen::{Verdict, stored},
    reference::Refused,
};

#[derive(Clone, PartialEq, Eq, Debug)]
pub struct AddChange {
    pub record: LentRecord,
    pub index: u32,
    pub change: Change,
}

impl Operation for AddChange {
    type Answer = Description;

    const NAMES: &'static [&'static str] = &["add"];
    const NUMBERS: &'static [u8] = &[2, 3, 4, 5, 6, 7];
    const DEFINITIONS: &'static [Module] = &[
        Module::new("Rattle.entries.specs.Repeats", ""),
        Module::new("Rattle.fst.specs.Change", "text real"),
    ];

    fn alterable(&self) -> (&[u8], &[u32]) {
        (&self.record.bytes, &self.record.indices)
    }

    fn by_oracle(&self, out: Slices) -> Result<Description, Refusal> {
        self.answer(oracle::add_change, out)
    }

    fn by_archive(&self, out: Slices) -> Result<Description, Refusal> {
        self.answer(archive::add_change, out)
    }

    fn is_in_domain(&self) -> bool {
        domain::is_record(&self.record)
    }

    #[cfg(wellen)]
    fn by_wellen(&self) -> Result<Verdict<Description>, Refused> {
        let record = &self.record;
        let (bytes, indices) = (record.used_bytes(), record.used_indices());
        let description = record.description;
        let next = reference::add_change(description, bytes, indices, self.index, &self.change)?;
        let bytes = (&record.bytes[..], record.byte_start);
        let indices = (&record.indices[..], record.index_start);
        Ok(stored(&next, bytes, indices))
    }

    fn smaller(&self) -> Vec<Self> {
        let with = |record, change| AddChange {
            record,
            index: self.index,
            change,
        };
        let mut out: Vec<AddChange> = fewer(&self.record)
            .into_iter()
            .map(|record| with(record, self.change.clone()))
            .collect();
        if let Change::Text(string) = &self.change {
            for by in STRIPS {
                let shorter = string.iter().skip(by as usize).copied().collect();
                let narrower = narrower(&self.record, by);
                out.extend(narrower.map(|record| with(record, Change::Text(shorter))));
            }
        }
        out
    }

    fn put(&self, out: &mut Fields) {
        out.record(&self.record);
        out.push(self.index);
        match &self.change {
            Change::Text(string) => {
                out.push('t');
                out.hexadecimal(string);
            }
            Change::Real(bits) => out.push(format_args!("r {bits}")),
        }
    }

    fn put_outcome(&self, outcome: &Outcome<Description>, out: &mut Fields) {
        out.description(outcome.answer.unwrap_or(self.record.description));
        out.hexadecimal(&outcome.bytes);
        out.hexadecimal(&outcome.indices);
    }

    fn parse(_: &str, fields: &mut Reader) -> Result<Self, String> {
        Ok(AddChange {
            record: fields.record()?,
            index: fields.number()?,
            change: match fields.field()? {
                "t" => fields.bytes().map(Change::Text)?,
                "r" => fields.number().map(Change::Real)?,
                other => return Err(format!("no such change: {other:?}")),
            },
        })
    }

    fn share(number: u8) -> usize {
        if number == 0 { 4 } else { 100 }
    }

    fn equation(&self, outcome: &Outcome<Description>) -> Option<String> {
        let change = match &self.change {
            Change::Text(string) => format!("(text {})", terms::list(string)),
            Change::Real(bits) => format!("(real {bits})"),
        };
        let recorder = format!(
            "record {{ description = {}; bytes = {}; indices = {} }}",
            terms::description(outcome.answer.unwrap_or(self.record.description)),
            terms::list(&outcome.bytes),
            terms::list(&outcome.indices)
        );
        let lent = terms::lent(&self.record);
        let call = format!("add_change {lent} {} {change}", self.index);
        Some(terms::leaves(
            "(Recorder Description)",
            &call,
            outcome,
            &recorder,
        ))
    }
}

type Function = fn(
    Description,
    &mut [u8],
    usize,
    &mut [u32],
    usize,
    u32,
    &Change,
) -> Result<Description, Refusal>;

impl AddChange {
    fn answer(&self, by: Function, out: Slices) -> Result<Description, Refusal> {
        let record = &self.record;
        let (byte_start, index_start) = (record.byte_start, record.index_start);
        let (bytes, indices) = (out.bytes, out.indices);
        let (d, index, change) = (record.description, self.index, &self.change);
        by(d, bytes, byte_start, indices, index_start, index, change)
    }
}

impl Generator {
    /// Changes to a record, each over slices of its own.
    pub(crate) fn go_on(
        &mut self,
        mut used: Used,
        changes: usize,
        to: &mut dyn Receiver,
    ) -> (Used, Vec<Fed>) {
        let mut fed = Vec::new();
        for _ in 0..changes {
            let last = last_string(&used);
            let change = self.change(used.description.encoding, last.as_deref());
            let index = self.next_index(used.indices.last().copied());
            if self.random.once_in(24) {
                let record = self.spoilt_description(&used);
                let change = change.clone();
                to.call(AddChange {
                    record,
                    index,
                    change,
                });
            }
            let record = self.lend(&used);
            let asked = to.call(AddChange {
                record,
                index,
                change,
            });
            let left = record_left(&asked);
            fed.push(Fed {
                index,
                change: asked.call.change,
                accepted: left.is_some(),
            });
            used = left.unwrap_or(used);
        }
        (used, fed)
    }
}

/// The text of a record's last entry, where it has one.
fn last_string(used: &Used) -> Option<Vec<u8>> {
    let Encoding::BitVector { width, .. } = used.description.encoding else {
        return None;
    };
    let mut out = vec![0; width as usize];
    let last = used.description.count.checked_sub(1)?;
    oracle::text(used.description, &used.bytes, 0, last, &mut out).ok()?;
    Some(out)
}

/// The record that an accepted change leaves.
pub fn record_left(asked: &Asked<AddChange>) -> Option<Used> {
    let (record, outcome) = (&asked.call.record, &asked.outcome);
    let next = outcome.answer.ok()?;
    let bytes = &outcome.bytes[record.byte_start..];
    Some(cut(next, bytes, &outcome.indices[record.index_start..]))
}
