//! What wellen's `u64` says of an entry goes with the number of the refusal, though wellen has no numbers.
#![cfg(wellen)]

use compare::by_wellen::without_indices;
use compare::generate::{Generator, Receiver, Size};
use compare::operation::{Asked, Case, Operation};
use compare::operations::number::{Number, Unsigned};
use std::collections::BTreeSet;

/// What wellen did, and the number of the oracle's answer.
#[derive(Default)]
struct Verdicts(BTreeSet<(&'static str, u8)>);

impl Receiver for Verdicts {
    fn take(&mut self, case: &dyn Case) {
        let Some(asked) = case.as_any().downcast_ref::<Asked<Number<Unsigned>>>() else {
            return;
        };
        let Asked { call, outcome } = asked;
        if !call.is_in_domain() {
            return;
        }
        let record = without_indices(&call.record).expect("a record of the domain");
        let verdict = match record.unsigned(call.entry) {
            Ok(Some(value)) => {
                assert_eq!(outcome.answer, Ok(value.into()), "{call:?}");
                "a value"
            }
            Ok(None) => "an error",
            Err(_) => "a panic",
        };
        self.0.insert((verdict, outcome.number()));
    }
}

/// wellen goes from the last level up. A bad code is a panic by its debug assertion, unless a level below it was an error before.
#[test]
fn an_error_is_a_bad_code_or_another_level() {
    let mut verdicts = Verdicts::default();
    let mut generator = Generator::new(8, Size::Full);
    (0..5_000).for_each(|_| generator.scenario(&mut verdicts));
    let expected = [
        ("a value", 0),
        ("an error", 10),
        ("an error", 17),
        ("a panic", 8),
        ("a panic", 9),
        ("a panic", 10),
    ];
    assert_eq!(verdicts.0, BTreeSet::from(expected));
}
