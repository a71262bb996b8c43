//! Read an entry.

use super::text::Text;
use crate::domain;
use crate::generate::{Generator, Receiver};
use crate::operation::{Operation, Outcome, Slices};
use crate::record::LentRecord;
use crate::shrink;
use crate::stored::{Fields, Module, Reader, terms};
use oracle::{Encoding, Entry, Kind, Refusal};
use reference::Used;
#[cfg(wellen)]
use {
    crate::by_wellen::{Verdict, without_indices},
    oracle::States,
    reference::{Refused, Value},
};

#[derive(Clone, PartialEq, Eq, Debug)]
pub struct Read {
    pub record: LentRecord,
    pub entry: u32,
}

impl Operation for Read {
    type Answer = Entry;

    const NAMES: &'static [&'static str] = &["read"];
    const NUMBERS: &'static [u8] = &[2, 8, 9];
    const DEFINITIONS: &'static [Module] = &[
        Module::new("Rattle.signal.specs.declared.Kind.TheVariants as kind", ""),
        Module::new("Rattle.signal.specs.Read", "Entry"),
    ];

    fn by_oracle(&self, _: Slices) -> Result<Entry, Refusal> {
        let record = &self.record;
        oracle::read(
            record.description,
            &record.bytes,
            record.byte_start,
            self.entry,
        )
    }

    fn by_archive(&self, _: Slices) -> Result<Entry, Refusal> {
        let record = &self.record;
        archive::read(
            record.description,
            &record.bytes,
            record.byte_start,
            self.entry,
        )
    }

    fn is_in_domain(&self) -> bool {
        domain::bytes_lent(&self.record)
            && !self.is_beyond_events()
            && !domain::read_by_the_rust(&self.record, self.entry)
    }

    #[cfg(wellen)]
    fn by_wellen(&self) -> Result<Verdict<Entry>, Refused> {
        let record = &self.record;
        let place = |start: usize, end: usize| record.byte_start + start..record.byte_start + end;
        let (kind, states, part) = match without_indices(record)?.read(self.entry)? {
            Value::Event => (Kind::Event, States::Two, place(0, 0)),
            Value::Real(bits) => {
                let start = self.entry as usize * 8;
                let part = place(start, start + 8);
                let stored = &record.bytes[part.clone()];
                assert_eq!(
                    stored,
                    bits.to_le_bytes(),
                    "the reference reads another real"
                );
                (Kind::Real, States::Two, part)
            }
            Value::BitVector { states, part } => {
                (Kind::BitVector, states, place(part.start, part.end))
            }
        };
        Ok(Verdict::accepted(Entry { kind, states, part }))
    }

    fn smaller(&self) -> Vec<Self> {
        let with = |record| Read {
            record,
            entry: self.entry,
        };
        shrink::records(&self.record)
            .into_iter()
            .map(with)
            .collect()
    }

    fn put(&self, out: &mut Fields) {
        out.bytes_of(&self.record);
        out.push(self.entry);
    }

    fn put_outcome(&self, outcome: &Outcome<Entry>, out: &mut Fields) {
        let Ok(entry) = &outcome.answer else {
            return out.push("e 0 .");
        };
        out.push(match entry.kind {
            Kind::Event => 'e',
            Kind::Real => 'r',
            Kind::BitVector => 'b',
        });
        out.push(entry.states.mark());
        out.hexadecimal(&self.record.bytes[entry.part.clone()]);
    }

    fn parse(_: &str, fields: &mut Reader) -> Result<Self, String> {
        Ok(Read {
            record: fields.bytes_of()?,
            entry: fields.number()?,
        })
    }

    fn equation(&self, outcome: &Outcome<Entry>) -> Option<String> {
        let value = |entry: &Entry| {
            let kind = match entry.kind {
                Kind::Event => "Event",
                Kind::Real => "Real",
                Kind::BitVector => "BitVector",
            };
            let part = terms::list(&self.record.bytes[entry.part.clone()]);
            let set = terms::set(entry.states);
            format!("(record {{ kind = kind.{kind}; set = {set}; part = {part} }})")
        };
        let (record, reply) = (terms::bytes_of(&self.record), terms::reply(outcome, value));
        Some(format!("read_entry {record} {} ≡ {reply}", self.entry))
    }

    /// Reads and texts of every entry and one beyond, of any, and of a spoilt record.
    fn ask_of_record(from: &mut Generator, used: &Used, to: &mut dyn Receiver) {
        for entry in 0..=used.description.count {
            from.read_and_text(used, entry, to);
        }
        if from.random.once_in(4) {
            let entry = from.random.number() as u32;
            from.read_and_text(used, entry, to);
        }
        if from.random.once_in(8) {
            let record = from.spoilt_description(used).without_indices();
            let out = from.random.bytes(8);
            read_and_text(record, 0, out, to);
        }
    }
}

impl Read {
    /// "8: entry number not below the count." `get_value_at` finds no byte missing for an event.
    fn is_beyond_events(&self) -> bool {
        let description = self.record.description;
        description.encoding == Encoding::Event && self.entry >= description.count
    }
}

impl Generator {
    fn read_and_text(&mut self, used: &Used, entry: u32, to: &mut dyn Receiver) {
        let record = self.lend_for_reading(used).without_indices();
        let width = match used.description.encoding {
            Encoding::BitVector { width, .. } => width as usize,
            _ => 4,
        };
        let len = self
            .random
            .pick(&[width - 1, width, width + 1, width + 3, width]);
        let out = self.random.bytes(len);
        read_and_text(record, entry, out, to);
    }
}

pub fn read_and_text(record: LentRecord, entry: u32, out: Vec<u8>, to: &mut dyn Receiver) {
    to.call(Read {
        record: record.clone(),
        entry,
    });
    to.call(Text { record, entry, out });
}
