//! Derive.

mod generate;

use crate::domain;
use crate::operation::{Operation, Outcome, Slices};
use crate::record::LentRecord;
use crate::stored::{Fields, Module, Reader, terms};
use oracle::{Derivation, Description, Encoding, Input, MAX_INPUTS, Refusal, States};
#[cfg(wellen)]
use {
    crate::by_wellen::{Verdict, stored, whole},
    reference::{Record, Refused},
};

#[derive(Clone, PartialEq, Eq, Debug)]
pub struct Derive {
    pub derivation: Derivation,
    pub inputs: Vec<Input>,
    pub bytes: Vec<u8>,
    pub indices: Vec<u32>,
    pub out_bytes: Vec<u8>,
    pub out_indices: Vec<u32>,
}

impl Operation for Derive {
    type Answer = Description;

    const NAMES: &'static [&'static str] = &["derive"];
    const NUMBERS: &'static [u8] = &[2, 14, 15, 11, 9, 10, 7];
    const DEFINITIONS: &'static [Module] = &[
        Module::new("Rattle.runs.specs.Runs", ""),
        Module::new("Rattle.steps.specs.declared.Input", "Input"),
        Module::new("Rattle.steps.specs.declared.Inputs", "Inputs"),
        Module::new("Rattle.steps.specs.Steps", ""),
        Module::new("Rattle.transform.specs.Derive", "Derived"),
    ];

    fn alterable(&self) -> (&[u8], &[u32]) {
        (&self.out_bytes, &self.out_indices)
    }

    fn by_oracle(&self, out: Slices) -> Result<Description, Refusal> {
        self.answer(oracle::derive, out)
    }

    /// Of more records than it can be lent the archive tries the first alone.
    fn is_exported(&self) -> bool {
        self.inputs.len() <= MAX_INPUTS
    }

    fn by_archive(&self, out: Slices) -> Result<Description, Refusal> {
        self.answer(archive::derive, out)
    }

    /// Where a derivation stands, wellen refuses one without a piece, and every input that is not a bit vector.
    fn is_in_domain(&self) -> bool {
        let (derivation, records) = (&self.derivation, self.records());
        let plain =
            |record: &LentRecord| matches!(record.description.encoding, Encoding::BitVector { .. });
        records.iter().all(domain::is_record)
            && domain::is_derivation(derivation)
            && (derivation.piece_count == 0
                || !records.iter().all(plain)
                || has_inputs(derivation, &records) && records.iter().all(is_input))
    }

    #[cfg(wellen)]
    fn by_wellen(&self) -> Result<Verdict<Description>, Refused> {
        let records: Vec<Record> = self.records().iter().map(whole).collect::<Result<_, _>>()?;
        let derived = reference::derive(&self.derivation, &records)?;
        let (bytes, indices) = (&self.out_bytes[..], &self.out_indices[..]);
        Ok(stored(&derived, (bytes, 0), (indices, 0)))
    }

    fn broken_law(&self, outcome: &Outcome<Description>) -> Option<&'static str> {
        (!self.is_list_laid_out(outcome))
            .then_some("after every accepted Derive the record is its derived list laid out")
    }

    fn smaller(&self) -> Vec<Self> {
        let mut cleared = self.clone();
        let derivation = &mut cleared.derivation;
        let unused = derivation
            .pieces
            .iter_mut()
            .skip(derivation.piece_count as usize);
        unused.for_each(|piece| *piece = 0);
        let mut out = Vec::new();
        if cleared != *self {
            out.push(cleared);
        }
        for at in 0..self.inputs.len() {
            let mut fewer = self.clone();
            let count = &mut fewer.inputs[at].description.count;
            if let Some(less) = count.checked_sub(1) {
                *count = less;
                out.push(fewer);
            }
        }
        out
    }

    fn put(&self, out: &mut Fields) {
        out.derivation(&self.derivation);
        out.push(self.inputs.len());
        for input in &self.inputs {
            out.description(input.description);
            out.push(input.byte_start);
            out.push(input.index_start);
        }
        out.hexadecimal(&self.bytes);
        out.hexadecimal(&self.indices);
        out.hexadecimal(&self.out_bytes);
        out.hexadecimal(&self.out_indices);
    }

    fn put_outcome(&self, outcome: &Outcome<Description>, out: &mut Fields) {
        out.made(&outcome.answer);
        out.hexadecimal(&outcome.bytes);
        out.hexadecimal(&outcome.indices);
    }

    fn parse(_: &str, fields: &mut Reader) -> Result<Self, String> {
        let derivation = fields.derivation()?;
        let count: usize = fields.number()?;
        let inputs = (0..count).map(|_| input_in(fields));
        Ok(Derive {
            derivation,
            inputs: inputs.collect::<Result<_, _>>()?,
            bytes: fields.bytes()?,
            indices: fields.indices()?,
            out_bytes: fields.bytes()?,
            out_indices: fields.indices()?,
        })
    }

    fn share(number: u8) -> usize {
        if number == 0 { 16 } else { 100 }
    }

    fn equation(&self, outcome: &Outcome<Description>) -> Option<String> {
        if self.inputs.len() > MAX_INPUTS {
            return None;
        }
        let call = format!(
            "derive {} {} {} {} {} {}",
            terms::derivation(&self.derivation),
            inputs_term(&self.inputs),
            terms::list(&self.bytes),
            terms::list(&self.indices),
            terms::list(&self.out_bytes),
            terms::list(&self.out_indices)
        );
        Some(format!(
            "{call} ≡ record {{ answer = {}; bytes = {}; indices = {} }}",
            terms::made(outcome),
            terms::list(&outcome.bytes),
            terms::list(&outcome.indices)
        ))
    }
}

type Function =
    fn(&Derivation, &[Input], &[u8], &[u32], &mut [u8], &mut [u32]) -> Result<Description, Refusal>;

impl Derive {
    fn answer(&self, by: Function, out: Slices) -> Result<Description, Refusal> {
        let (d, inputs) = (&self.derivation, &self.inputs);
        by(
            d,
            inputs,
            &self.bytes,
            &self.indices,
            out.bytes,
            out.indices,
        )
    }

    /// The inputs, each with the shared slices.
    fn records(&self) -> Vec<LentRecord> {
        let record = |input: &Input| LentRecord {
            byte_start: input.byte_start,
            index_start: input.index_start,
            ..LentRecord::new(input.description, &self.bytes, &self.indices)
        };
        self.inputs.iter().map(record).collect()
    }

    fn is_list_laid_out(&self, outcome: &Outcome<Description>) -> bool {
        let list = oracle::derived_list(&self.derivation, &self.inputs, &self.bytes, &self.indices);
        let sets = self
            .inputs
            .iter()
            .map(|input| match input.description.encoding {
                Encoding::BitVector { max_states, .. } => max_states,
                Encoding::Event | Encoding::Real => States::Two,
            });
        let largest = sets.max().unwrap_or(States::Two);
        let (description, bytes, indices) =
            oracle::derived_laid_out(self.derivation.width, largest, &list);
        outcome.answer == Ok(description)
            && laid_over(&outcome.bytes, &self.out_bytes, &bytes)
            && laid_over(&outcome.indices, &self.out_indices, &indices)
    }
}

/// Whether `after` is `used`, and behind it what was there before.
fn laid_over<T: PartialEq>(after: &[T], before: &[T], used: &[T]) -> bool {
    after.len() == before.len()
        && after.starts_with(used)
        && after[used.len()..] == before[used.len()..]
}

/// "14 (as above, or no piece, not one record for each input, an input not a bit vector, a piece beyond its
/// width)". wellen counts no records, and reads bits beyond a width.
fn has_inputs(derivation: &Derivation, records: &[LentRecord]) -> bool {
    let within = |piece: &u64| {
        let (input, width, lsb) = domain::unpacked(*piece);
        match records[input as usize].description.encoding {
            Encoding::BitVector { width: whole, .. } => lsb + width <= u64::from(whole),
            Encoding::Event | Encoding::Real => false,
        }
    };
    records.len() == derivation.input_count as usize
        && derivation.pieces[..derivation.piece_count as usize]
            .iter()
            .all(within)
}

/// "The Rust takes an index for an offset when the first index is not 0, and never starts late inputs; 15 stands
/// for both." "11" too: wellen does not look whether an index falls. For 9 see Read.
fn is_input(record: &LentRecord) -> bool {
    let indices = record.used_indices();
    indices.first() == Some(&0)
        && indices.is_sorted()
        && (0..record.description.count).all(|entry| !domain::read_by_the_rust(record, entry))
}

fn input_in(fields: &mut Reader) -> Result<Input, String> {
    Ok(Input {
        description: fields.description()?,
        byte_start: fields.number()?,
        index_start: fields.number()?,
    })
}

/// Eight places, the inputs in the first.
fn inputs_term(inputs: &[Input]) -> String {
    let blank = Input {
        description: oracle::fresh_real(),
        byte_start: 0,
        index_start: 0,
    };
    let slot = |at: usize| {
        let input = inputs.get(at).unwrap_or(&blank);
        format!(
            "(record {{ description = {}; byte_start = {}; index_start = {} }})",
            terms::description(input.description),
            input.byte_start,
            input.index_start
        )
    };
    let slots: Vec<String> = (0..MAX_INPUTS).map(slot).collect();
    let (count, slots) = (inputs.len(), terms::list(&slots));
    format!("(record {{ count = {count}; slots = {slots} }})")
}
