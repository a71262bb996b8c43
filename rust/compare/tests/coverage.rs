//! That the generator reaches what the comparison is meant to cover.

use compare::generate::{Generator, Receiver, Size};
use compare::operation::{Asked, Case, Operation};
use compare::operations::OPERATIONS;
use compare::operations::add_change::AddChange;
use compare::operations::compare::Compare;
use compare::operations::derive::Derive;
use compare::operations::look_up::LookUp;
use compare::operations::number::{Decimal, Form, Number, Signed, Unsigned};
use compare::record::SETS;
use oracle::{Encoding, States};
use std::collections::BTreeSet;

#[derive(Default)]
struct Coverage {
    numbers: BTreeSet<(&'static str, u8)>,
    widths: BTreeSet<u32>,
    /// Old largest set, new one, width modulo 8, of accepted changes to records with entries.
    raises: BTreeSet<(States, States, u32)>,
    inputs: BTreeSet<u32>,
    pieces: BTreeSet<u32>,
    longest_list: usize,
    /// Of comparisons: whether wellen is a reference, the answer, and whether the used bytes are equal.
    comparisons: BTreeSet<(bool, bool, bool)>,
    /// Of accepted numbers: the form, the width, and the entry's own set.
    counted: BTreeSet<(&'static str, u32, States)>,
    /// Whether a signed number is below zero, with its width.
    signs: BTreeSet<(bool, u32)>,
}

/// The call and its answer, if it is an accepted one of this operation.
fn accepted<O: Operation>(case: &dyn Case) -> Option<(&O, &O::Answer)> {
    let asked = case.as_any().downcast_ref::<Asked<O>>()?;
    Some((&asked.call, asked.outcome.answer.as_ref().ok()?))
}

impl Receiver for Coverage {
    fn take(&mut self, case: &dyn Case) {
        self.numbers.insert((case.name(), case.number()));
        if let Some((call, next)) = accepted::<AddChange>(case) {
            let before = call.record.description;
            if before.count > 0 {
                self.raised(before.encoding, next.encoding);
            }
        } else if let Some((call, _)) = accepted::<Derive>(case) {
            self.inputs.insert(call.derivation.input_count);
            self.pieces.insert(call.derivation.piece_count);
        } else if let Some((call, equal)) = accepted::<Compare>(case) {
            let same_bytes = call.first.used_bytes() == call.second.used_bytes();
            let comparison = (call.is_in_domain(), *equal, same_bytes);
            self.comparisons.insert(comparison);
        } else if let Some((call, _)) = accepted::<LookUp>(case) {
            self.longest_list = self.longest_list.max(call.indices.len());
        }
        self.count::<Unsigned>(case);
        self.count::<Decimal>(case);
        if let Some((width, value)) = self.count::<Signed>(case) {
            self.signs.insert((value < 0, width));
        }
    }
}

impl Coverage {
    fn raised(&mut self, before: Encoding, after: Encoding) {
        if let (
            Encoding::BitVector { width, max_states },
            Encoding::BitVector {
                max_states: larger, ..
            },
        ) = (before, after)
        {
            self.widths.insert(width);
            self.raises.insert((max_states, larger, width % 8));
        }
    }

    /// The width and the value, if it is an accepted call of this form.
    fn count<F: Form>(&mut self, case: &dyn Case) -> Option<(u32, i128)> {
        let (call, value) = accepted::<Number<F>>(case)?;
        let record = &call.record;
        let Encoding::BitVector { width, .. } = record.description.encoding else {
            return None;
        };
        let read = oracle::read(
            record.description,
            &record.bytes,
            record.byte_start,
            call.entry,
        );
        let states = read.expect("a number is read").states;
        self.counted.insert((case.name(), width, states));
        Some((width, *value))
    }

    fn of(size: Size, scenarios: usize) -> Self {
        let mut coverage = Self::default();
        let mut generator = Generator::new(1, size);
        for _ in 0..scenarios {
            generator.scenario(&mut coverage);
        }
        coverage
    }
}

/// Every number of every operation. 2 of Look up and of Search needs a list above the maximum, which the edges have.
fn all_numbers() -> BTreeSet<(&'static str, u8)> {
    let mut out = BTreeSet::new();
    for operation in OPERATIONS {
        for name in operation.names {
            out.insert((*name, 0));
            out.extend(operation.numbers.iter().map(|number| (*name, *number)));
        }
    }
    out.remove(&("lookup", 2));
    out.remove(&("search", 2));
    out
}

#[test]
fn everything_is_reached() {
    let coverage = Coverage::of(Size::Full, 20_000);
    assert_eq!(coverage.numbers, all_numbers());
    let widths: BTreeSet<u32> = (1..=40)
        .chain([63, 64, 65, 127, 128, 255, 256, 4_095, 4_096])
        .collect();
    assert_eq!(coverage.widths, widths);
    let pairs = SETS
        .iter()
        .flat_map(|&from| SETS.iter().map(move |&to| (from, to)));
    let rising = pairs.filter(|(from, to)| from <= to);
    let raises: BTreeSet<(States, States, u32)> = rising
        .flat_map(|(from, to)| (0..8).map(move |rest| (from, to, rest)))
        .collect();
    assert_eq!(coverage.raises, raises);
    assert_eq!(coverage.inputs, (1..=8).collect());
    assert_eq!(coverage.pieces.last(), Some(&64));
    assert_eq!(coverage.comparisons.len(), 8, "{:?}", coverage.comparisons);
    assert!(
        coverage.longest_list >= 131_071,
        "{}",
        coverage.longest_list
    );
}

/// Every width of each form with entries of every set, and numbers below zero and not.
#[test]
fn every_number_is_reached() {
    let coverage = Coverage::of(Size::Full, 20_000);
    let forms: [(&str, usize); 3] = [("unsigned", 1), ("signed", 1), ("decimal", 4)];
    let widths = forms.into_iter().flat_map(|(name, step)| {
        let widths = (step as u32..=64).step_by(step);
        widths.map(move |width| (name, width))
    });
    let counted: BTreeSet<_> = widths
        .flat_map(|(name, width)| SETS.map(|states| (name, width, states)))
        .collect();
    assert_eq!(coverage.counted, counted);
    let signs = [false, true]
        .into_iter()
        .flat_map(|below| (1..=64).map(move |width| (below, width)));
    assert_eq!(coverage.signs, signs.collect());
}

#[test]
fn one_seed_gives_the_same_calls() {
    struct Calls(Vec<String>);
    impl Receiver for Calls {
        fn take(&mut self, case: &dyn Case) {
            self.0.push(case.line());
        }
    }
    let calls = |seed| {
        let mut calls = Calls(Vec::new());
        let mut generator = Generator::new(seed, Size::Small);
        (0..50).for_each(|_| generator.scenario(&mut calls));
        calls.0
    };
    assert_eq!(calls(5), calls(5));
    assert_ne!(calls(5), calls(6));
}
