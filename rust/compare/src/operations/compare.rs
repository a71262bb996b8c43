//! Compare.

use crate::domain;
use crate::generate::{Generator, Receiver, added};
use crate::operation::{Operation, Outcome, Slices};
use crate::record::{LentRecord, SETS, cut, level_bytes};
use crate::shrink;
use crate::stored::{Fields, Module, Reader, terms};
use oracle::{Change, Encoding, Refusal, States};
use reference::Used;
#[cfg(wellen)]
use {
    crate::by_wellen::{Verdict, whole},
    reference::Refused,
};

#[derive(Clone, PartialEq, Eq, Debug)]
pub struct Compare {
    pub first: LentRecord,
    pub second: LentRecord,
}

impl Operation for Compare {
    type Answer = bool;

    const NAMES: &'static [&'static str] = &["compare"];
    const NUMBERS: &'static [u8] = &[2, 9, 10];
    const DEFINITIONS: &'static [Module] = &[
        Module::library("lib.Ieee", "", "eq of_bits of_fields odd"),
        Module::new("Rattle.equality.specs.Compare", ""),
    ];

    fn by_oracle(&self, _: Slices) -> Result<bool, Refusal> {
        oracle::compare(&self.first.as_record(), &self.second.as_record())
    }

    fn by_archive(&self, _: Slices) -> Result<bool, Refusal> {
        archive::compare(&self.first.as_record(), &self.second.as_record())
    }

    fn is_in_domain(&self) -> bool {
        self.first.description.encoding == self.second.description.encoding
            && [&self.first, &self.second]
                .into_iter()
                .all(|record| domain::is_record(record) && is_clean(record))
    }

    #[cfg(wellen)]
    fn by_wellen(&self) -> Result<Verdict<bool>, Refused> {
        let equal = whole(&self.first)?.equals(&whole(&self.second)?)?;
        Ok(Verdict::accepted(equal))
    }

    fn smaller(&self) -> Vec<Self> {
        let seconds = shrink::records(&self.second);
        shrink::records(&self.first)
            .into_iter()
            .zip(seconds)
            .map(|(first, second)| Compare { first, second })
            .collect()
    }

    fn put(&self, out: &mut Fields) {
        out.record(&self.first);
        out.record(&self.second);
    }

    fn put_outcome(&self, outcome: &Outcome<bool>, out: &mut Fields) {
        out.push(u8::from(outcome.answer == Ok(true)));
    }

    fn parse(_: &str, fields: &mut Reader) -> Result<Self, String> {
        Ok(Compare {
            first: fields.record()?,
            second: fields.record()?,
        })
    }

    fn equation(&self, outcome: &Outcome<bool>) -> Option<String> {
        let lent = format!("{} {}", terms::lent(&self.first), terms::lent(&self.second));
        let reply = terms::reply(outcome, bool::to_string);
        Some(format!("compare_records {lent} ≡ {reply}"))
    }

    fn ask_of_record(from: &mut Generator, used: &Used, to: &mut dyn Receiver) {
        from.compare_with_likes(used, to);
    }
}

/// "The Rust (...) is the reference for records of equal width and largest set, with no bad mark or code and
/// unused bits zero."
fn is_clean(record: &LentRecord) -> bool {
    let description = record.description;
    match description.encoding {
        Encoding::Event | Encoding::Real => true,
        Encoding::BitVector { width, max_states } => (0..description.count)
            .all(|entry| is_clean_entry(width, max_states, record.entry(entry))),
    }
}

fn is_clean_entry(width: u32, max_states: States, entry: &[u8]) -> bool {
    let Some(states) = own_set(max_states, entry) else {
        return false;
    };
    let mut unmarked = entry.to_vec();
    if max_states != States::Two {
        unmarked[0] &= 0x3f;
    }
    let levels = level_bytes(width, states);
    let (between, levels) = unmarked.split_at(entry.len() - levels);
    let used_bits = width * states.bits() % 8;
    between.iter().all(|&byte| byte == 0)
        && (used_bits == 0 || levels[0] >> used_bits == 0)
        && (states != States::Nine || are_codes(width, levels))
}

fn own_set(max_states: States, entry: &[u8]) -> Option<States> {
    let mark = if max_states == States::Two {
        0
    } else {
        entry[0] >> 6
    };
    SETS.into_iter()
        .find(|states| states.mark() == mark && *states <= max_states)
}

/// Whether no level of set Nine has a code above 8.
fn are_codes(width: u32, levels: &[u8]) -> bool {
    let codes = levels.iter().flat_map(|byte| [byte >> 4, byte & 15]);
    codes.rev().take(width as usize).all(|code| code <= 8)
}

impl Generator {
    /// Comparisons of runs that have nothing or nearly everything in common.
    pub(crate) fn likenesses(&mut self, to: &mut dyn Receiver) {
        let width = self.width();
        let changes = self.random.below(6);
        let first = self.run(width, changes, to);
        let other = if self.random.once_in(4) {
            self.width()
        } else {
            width
        };
        let second = self.run(other, changes, to);
        self.compare(&first, &second, to);
        if self.random.once_in(2) {
            let widened = self.under_another_set(&first, to);
            self.compare(&first, &widened, to);
        }
    }

    /// The record after one more change, without that change's entry.
    fn under_another_set(&mut self, used: &Used, to: &mut dyn Receiver) -> Used {
        let (mut out, _) = self.go_on(used.clone(), 1, to);
        out.description.count = used.description.count.min(out.description.count);
        cut(out.description, &out.bytes, &out.indices)
    }

    fn compare_with_likes(&mut self, used: &Used, to: &mut dyn Receiver) {
        self.compare(used, used, to);
        let flipped = self.with_flipped_bits(used);
        self.compare(used, &flipped, to);
        let mut other = used.clone();
        match self.random.below(5) {
            0 if !other.indices.is_empty() => {
                let at = self.random.below(other.indices.len());
                other.indices[at] ^= 1;
            }
            1 if other.description.count > 0 => other.description.count -= 1,
            2 => other = Used::empty(oracle::fresh_real()),
            3 => other = self.any_bytes(),
            _ => {}
        }
        self.compare(&other, used, to);
    }

    /// A derived record beside a run of its own strings: like values, often with other own sets.
    pub(crate) fn compare_with_rewritten(&mut self, derived: &Used, to: &mut dyn Receiver) {
        let Encoding::BitVector { width, .. } = derived.description.encoding else {
            return;
        };
        let Ok(description) = oracle::fresh(width) else {
            return;
        };
        let mut written = Used::empty(description);
        for (entry, index) in derived.indices.iter().enumerate() {
            let mut string = vec![0; width as usize];
            let bytes = &derived.bytes;
            if oracle::text(derived.description, bytes, 0, entry as u32, &mut string).is_ok() {
                written = added(&written, *index, &Change::Text(string));
            }
        }
        self.compare(derived, &written, to);
        self.compare(&written, derived, to);
    }

    fn compare(&mut self, first: &Used, second: &Used, to: &mut dyn Receiver) {
        let (mut first, mut second) = (self.lend_for_reading(first), self.lend_for_reading(second));
        match self.random.below(60) {
            0 => first.description.count += 9,
            1 => second.description.count += 9,
            _ => {}
        }
        to.call(Compare { first, second });
    }
}
