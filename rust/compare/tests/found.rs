//! A wrong outcome is found, by wellen and by the archive, and shown at a smaller call.

use compare::by_wellen::Verdict;
use compare::check::Checker;
use compare::generate::Receiver;
use compare::operation::{Operation, Outcome, Slices};
use compare::operations::look_up::LookUp;
use compare::stored::{Fields, Module, Reader};
use oracle::{Offset, Refusal};
use reference::Refused;

/// Look up with an oracle that takes three equal indices for two.
#[derive(Clone, PartialEq, Debug)]
struct Wrong(LookUp);

impl Operation for Wrong {
    type Answer = Option<Offset>;

    const NAMES: &'static [&'static str] = &["wrong"];
    const NUMBERS: &'static [u8] = LookUp::NUMBERS;
    const DEFINITIONS: &'static [Module] = &[];

    fn by_oracle(&self, out: Slices) -> Result<Option<Offset>, Refusal> {
        let wrong = |offset: Offset| Offset {
            elements: offset.elements.min(2),
            ..offset
        };
        Ok(self.0.by_oracle(out)?.map(wrong))
    }

    fn by_archive(&self, out: Slices) -> Result<Option<Offset>, Refusal> {
        self.0.by_archive(out)
    }

    fn is_in_domain(&self) -> bool {
        self.0.is_in_domain()
    }

    fn by_wellen(&self) -> Result<Verdict<Option<Offset>>, Refused> {
        self.0.by_wellen()
    }

    fn is_wellens(answer: &Option<Offset>, wellens: &Option<Offset>) -> bool {
        LookUp::is_wellens(answer, wellens)
    }

    fn smaller(&self) -> Vec<Self> {
        self.0.smaller().into_iter().map(Wrong).collect()
    }

    fn put(&self, out: &mut Fields) {
        self.0.put(out);
    }

    fn put_outcome(&self, outcome: &Outcome<Option<Offset>>, out: &mut Fields) {
        self.0.put_outcome(outcome, out);
    }

    fn parse(name: &str, fields: &mut Reader) -> Result<Self, String> {
        LookUp::parse(name, fields).map(Wrong)
    }

    fn equation(&self, _: &Outcome<Option<Offset>>) -> Option<String> {
        None
    }
}

#[test]
fn three_equal_indices_are_left_of_many() {
    let mut checker = Checker::default();
    let to: &mut dyn Receiver = &mut checker;
    to.call(Wrong(LookUp {
        indices: vec![0, 1, 1, 4, 4, 4, 4, 4, 6, 9, 9],
        sought: 5,
    }));
    let judges = [(cfg!(wellen), "wellen"), (true, "archive")];
    let found = judges
        .iter()
        .filter(|(present, _)| *present)
        .map(|(_, by)| {
            let call = "wrong 000000040000000400000004 5 =";
            format!("{by}: \n  oracle: {call} 0 1 0 2 0 0 0\n  {by}: {call} 0 1 0 3 0 0 0")
        });
    assert_eq!(checker.disagreements, found.collect::<Vec<_>>());
}
