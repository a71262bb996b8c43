//! Numbers: an entry read as unsigned, as signed or as packed decimal, which are three operations here.

use crate::domain;
use crate::generate::{Generator, Receiver};
use crate::operation::{Operation, Outcome, Slices};
use crate::record::{LentRecord, SETS, entry_size};
use crate::shrink;
use crate::stored::{Fields, Module, Reader, terms};
use oracle::{Encoding, Refusal, States};
use reference::Used;
use std::fmt::Debug;
#[cfg(wellen)]
use {
    crate::by_wellen::{Verdict, without_indices},
    reference::Refused,
};

/// What the three differ in.
pub trait Form: Clone + PartialEq + Debug + Default + 'static {
    const NAMES: &'static [&'static str];
    const NUMBERS: &'static [u8];
    const DEFINITIONS: &'static [Module];
    const FORM: oracle::Form;
    /// The form as the definition's argument.
    const TERM: &'static str;

    fn put(value: i128, out: &mut Fields) {
        out.push(value);
    }

    fn term(value: i128) -> String {
        value.to_string()
    }
}

#[derive(Clone, PartialEq, Debug, Default)]
pub struct Unsigned;

#[derive(Clone, PartialEq, Debug, Default)]
pub struct Signed;

#[derive(Clone, PartialEq, Debug, Default)]
pub struct Decimal;

impl Form for Unsigned {
    const NAMES: &'static [&'static str] = &["unsigned"];
    const NUMBERS: &'static [u8] = &[2, 3, 8, 9, 10, 16, 17];
    const DEFINITIONS: &'static [Module] = &[
        Module::library("Rattle.std.specs.Prelude", "pos negsuc", ""),
        Module::new("Rattle.numbers.specs.Number", "unsigned signed decimal"),
    ];
    const FORM: oracle::Form = oracle::Form::Unsigned;
    const TERM: &'static str = "unsigned";
}

impl Form for Signed {
    const NAMES: &'static [&'static str] = &["signed"];
    const NUMBERS: &'static [u8] = Unsigned::NUMBERS;
    const DEFINITIONS: &'static [Module] = &[];
    const FORM: oracle::Form = oracle::Form::Signed;
    const TERM: &'static str = "signed";

    /// Whether it is below zero, and how far it is from zero.
    fn put(value: i128, out: &mut Fields) {
        out.push(u8::from(value < 0));
        out.push(value.unsigned_abs());
    }

    fn term(value: i128) -> String {
        match value {
            0.. => format!("(pos {value})"),
            _ => format!("(negsuc {})", -value - 1),
        }
    }
}

impl Form for Decimal {
    const NAMES: &'static [&'static str] = &["decimal"];
    const NUMBERS: &'static [u8] = &[2, 3, 8, 9, 10, 16, 17, 18];
    const DEFINITIONS: &'static [Module] = &[];
    const FORM: oracle::Form = oracle::Form::Decimal;
    const TERM: &'static str = "decimal";
}

#[derive(Clone, PartialEq, Debug)]
pub struct Number<F> {
    pub record: LentRecord,
    pub entry: u32,
    pub form: F,
}

impl<F: Form> Operation for Number<F> {
    type Answer = i128;

    const NAMES: &'static [&'static str] = F::NAMES;
    const NUMBERS: &'static [u8] = F::NUMBERS;
    const DEFINITIONS: &'static [Module] = F::DEFINITIONS;
    const DOCUMENT: u8 = 2;

    fn by_oracle(&self, _: Slices) -> Result<i128, Refusal> {
        let record = &self.record;
        oracle::number(
            F::FORM,
            record.description,
            &record.bytes,
            record.byte_start,
            self.entry,
        )
    }

    fn by_archive(&self, _: Slices) -> Result<i128, Refusal> {
        let record = &self.record;
        archive::number(
            F::FORM,
            record.description,
            &record.bytes,
            record.byte_start,
            self.entry,
        )
    }

    /// wellen has a conversion for unsigned numbers alone. It takes any width and drops the bits above the 64th.
    fn is_in_domain(&self) -> bool {
        let wide = match self.record.description.encoding {
            Encoding::BitVector { width, .. } => width > 64,
            Encoding::Event | Encoding::Real => true,
        };
        F::FORM == oracle::Form::Unsigned
            && !wide
            && domain::bytes_lent(&self.record)
            && !domain::read_by_the_rust(&self.record, self.entry)
    }

    #[cfg(wellen)]
    fn by_wellen(&self) -> Result<Verdict<i128>, Refused> {
        let number = without_indices(&self.record)?.unsigned(self.entry)?;
        Ok(Verdict::accepted(number.ok_or(Refused)?.into()))
    }

    fn smaller(&self) -> Vec<Self> {
        let with = |record| Self {
            record,
            ..self.clone()
        };
        shrink::records(&self.record)
            .into_iter()
            .map(with)
            .collect()
    }

    fn put(&self, out: &mut Fields) {
        out.bytes_of(&self.record);
        out.push(self.entry);
    }

    fn put_outcome(&self, outcome: &Outcome<i128>, out: &mut Fields) {
        F::put(*outcome.answer.as_ref().unwrap_or(&0), out);
    }

    fn parse(_: &str, fields: &mut Reader) -> Result<Self, String> {
        Ok(Self {
            record: fields.bytes_of()?,
            entry: fields.number()?,
            form: F::default(),
        })
    }

    /// Half as many accepted ones as of the other operations, and of refused ones: there are three forms.
    fn share(number: u8) -> usize {
        if number == 0 { 40 } else { 200 }
    }

    fn equation(&self, outcome: &Outcome<i128>) -> Option<String> {
        let record = terms::bytes_of(&self.record);
        let reply = terms::reply(outcome, |value| F::term(*value));
        let (form, entry) = (F::TERM, self.entry);
        Some(format!("read_number {form} {record} {entry} ≡ {reply}"))
    }

    /// One entry, in every form the same.
    fn ask_of_record(from: &mut Generator, used: &Used, to: &mut dyn Receiver) {
        let mut from = from.aside();
        let record = from.lend_for_reading(used).without_indices();
        let entry = from.random.below(used.description.count as usize + 1) as u32;
        call::<F>(&record, entry, to);
    }

    /// An entry of a record that is made for it, in every form the same.
    fn ask_aside(from: &mut Generator, to: &mut dyn Receiver) {
        let used = from.for_numbers();
        let record = if from.random.once_in(24) {
            from.spoilt_description(&used)
        } else {
            from.lend_for_reading(&used)
        };
        let entry = match from.random.below(24) {
            0 => from.random.number() as u32,
            1 => used.description.count,
            _ => from.random.below(used.description.count as usize) as u32,
        };
        call::<F>(&record.without_indices(), entry, to);
    }
}

/// The three calls of an entry.
pub fn in_every_form(record: &LentRecord, entry: u32, to: &mut dyn Receiver) {
    call::<Unsigned>(record, entry, to);
    call::<Signed>(record, entry, to);
    call::<Decimal>(record, entry, to);
}

fn call<F: Form>(record: &LentRecord, entry: u32, to: &mut dyn Receiver) {
    let (record, form) = (record.clone(), F::default());
    to.call(Number {
        record,
        entry,
        form,
    });
}

/// Widths at which the three forms turn, picked as often as the rest up to 70.
const TURNS: &[u32] = &[1, 4, 8, 32, 60, 61, 62, 63, 64, 65, 66, 67, 68];

impl Generator {
    /// A record whose entries are numbers, or nearly.
    fn for_numbers(&mut self) -> Used {
        let encoding = match self.random.below(40) {
            0 => Encoding::Real,
            1 => Encoding::Event,
            _ => Encoding::BitVector {
                width: self.width_of_a_number(),
                max_states: self.random.pick(&SETS),
            },
        };
        let count = self.random.from_to(1, 3);
        let bytes = (0..count).flat_map(|_| match encoding {
            Encoding::BitVector { width, max_states } => self.entry(width, max_states),
            _ => self.random.bytes(entry_size(encoding)),
        });
        Used::of(encoding, &bytes.collect::<Vec<u8>>(), &vec![0; count])
    }

    fn width_of_a_number(&mut self) -> u32 {
        match self.random.below(60) {
            0 => 4_096,
            1..=29 => self.random.from_to(1, 70) as u32,
            _ => self.random.pick(TURNS),
        }
    }

    /// An entry of any own set up to the largest one, whatever its levels are.
    fn entry(&mut self, width: u32, max_states: States) -> Vec<u8> {
        let own: Vec<States> = SETS
            .into_iter()
            .filter(|states| *states <= max_states)
            .collect();
        let own = self.random.pick(&own);
        let mut codes = self.bits_of_a_number(width as usize);
        let place = self.random.below(codes.len());
        match (self.random.below(12), own) {
            (0 | 1, States::Four) => codes[place] = self.random.from_to(2, 3) as u8,
            (0 | 1, States::Nine) => codes[place] = self.random.from_to(2, 8) as u8,
            (2, States::Nine) => codes[place] = self.random.from_to(9, 15) as u8,
            _ => {}
        }
        let mark = if self.random.once_in(24) {
            self.random.from_to(own.mark().into(), 3) as u8
        } else {
            own.mark()
        };
        let mut entry = self.packed(width, max_states, own, &codes);
        if max_states != States::Two {
            entry[0] = entry[0] & 0x3f | mark << 6;
        }
        entry
    }

    /// An end, where all levels but the first are alike, or digits: up to 15, up to 9, or up to 9 but for one near 9.
    fn bits_of_a_number(&mut self, width: usize) -> Vec<u8> {
        let kind = self.random.below(4);
        if kind == 0 {
            let mut bits = vec![self.random.pick(&[0, 1]); width];
            bits[0] = self.random.pick(&[0, 1]);
            return bits;
        }
        let most = if kind == 1 { 15 } else { 9 };
        let mut digits: Vec<u8> = (0..width.div_ceil(4))
            .map(|_| self.random.from_to(0, most) as u8)
            .collect();
        if kind == 2 {
            let place = self.random.below(digits.len());
            digits[place] = self.random.from_to(8, 11) as u8;
        }
        let bits = digits
            .iter()
            .flat_map(|digit| [3, 2, 1, 0].map(|place| digit >> place & 1));
        bits.skip(digits.len() * 4 - width).collect()
    }

    /// The codes in the last bits of an entry. What stands above them is zero, or now and then not.
    fn packed(&mut self, width: u32, max_states: States, own: States, codes: &[u8]) -> Vec<u8> {
        let size = entry_size(Encoding::BitVector { width, max_states });
        let places = (0..own.bits()).rev();
        let levels = codes
            .iter()
            .flat_map(|code| places.clone().map(move |place| code >> place & 1));
        let stray = self.random.once_in(8);
        let mut bits: Vec<u8> = (0..size * 8 - codes.len() * own.bits() as usize)
            .map(|_| u8::from(stray) & self.random.byte())
            .collect();
        bits.extend(levels);
        let byte = |bits: &[u8]| bits.iter().fold(0, |byte, bit| byte << 1 | bit);
        bits.chunks(8).map(byte).collect()
    }
}
