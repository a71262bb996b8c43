//! What the comparison knows of an operation. Each has a file in `operations` and a line in the list there.

use crate::by_wellen::{Verdict, verdict};
use crate::check;
use crate::generate::{Generator, Receiver};
use crate::stored::{Fields, Module, Reader};
use oracle::Refusal;
use reference::{Refused, Used};
use std::any::Any;
use std::fmt::Debug;

/// A call of an operation with all that it is lent.
pub trait Operation: Clone + PartialEq + Debug + 'static {
    /// What an accepted call answers beside the slices.
    type Answer: PartialEq + Debug;

    /// The names in the stored answers; more than one where the name tells a parameter.
    const NAMES: &'static [&'static str];
    /// The refusals, in the order in which they are tried.
    const NUMBERS: &'static [u8];
    /// The modules with the definitions that no operation listed before goes through.
    const DEFINITIONS: &'static [Module];
    /// The document that asks for it, 0 for none. Stored answers stand in this order, so that those of a later document leave the
    /// earlier ones at their lines.
    const DOCUMENT: u8 = 1;

    fn name(&self) -> &'static str {
        Self::NAMES[0]
    }

    /// The slices that are lent to be altered, as they are before the call.
    fn alterable(&self) -> (&[u8], &[u32]) {
        (&[], &[])
    }

    fn by_oracle(&self, out: Slices) -> Result<Self::Answer, Refusal>;

    /// Whether the archive can be lent what the call has.
    fn is_exported(&self) -> bool {
        true
    }

    fn by_archive(&self, out: Slices) -> Result<Self::Answer, Refusal>;

    /// Whether wellen is a reference for this call.
    fn is_in_domain(&self) -> bool {
        false
    }

    /// wellen's verdict on a call of its domain.
    fn by_wellen(&self) -> Result<Verdict<Self::Answer>, Refused> {
        unreachable!("wellen is missing, or has no such operation")
    }

    /// Whether an answer is wellen's, where wellen's shows all of it or a part.
    fn is_wellens(answer: &Self::Answer, wellens: &Self::Answer) -> bool {
        answer == wellens
    }

    /// What document 01 says of every accepted call and this one breaks.
    fn broken_law(&self, _outcome: &Outcome<Self::Answer>) -> Option<&'static str> {
        None
    }

    /// Calls one step smaller, the largest steps first.
    fn smaller(&self) -> Vec<Self> {
        Vec::new()
    }

    /// What goes in, in the form of the stored answers.
    fn put(&self, out: &mut Fields);

    /// What comes out, behind the number.
    fn put_outcome(&self, outcome: &Outcome<Self::Answer>, out: &mut Fields);

    fn parse(name: &str, fields: &mut Reader) -> Result<Self, String>;

    /// One call in so many stored ones has an outcome of this number, at most.
    fn share(number: u8) -> usize {
        if number == 0 { 20 } else { 100 }
    }

    /// The equation between the definition of the call and its outcome, where the definition is lent what the call has.
    fn equation(&self, outcome: &Outcome<Self::Answer>) -> Option<String>;

    /// Calls that a record, written or made up, is asked. An operation that draws from [`Generator::aside`] leaves the
    /// calls of the others as they are.
    fn ask_of_record(_: &mut Generator, _: &Used, _: &mut dyn Receiver) {}

    /// Calls that belong to no record, beside each scenario.
    fn ask_aside(_: &mut Generator, _: &mut dyn Receiver) {}
}

/// The slices that a call is lent to alter, empty where it is lent none.
pub struct Slices<'a> {
    pub bytes: &'a mut [u8],
    pub indices: &'a mut [u32],
}

/// What a call leaves: its answer or the number of its refusal, and the slices that were lent to be altered, whole.
#[derive(Clone, PartialEq, Eq, Debug)]
pub struct Outcome<Answer> {
    pub answer: Result<Answer, Refusal>,
    pub bytes: Vec<u8>,
    pub indices: Vec<u32>,
}

impl<Answer> Outcome<Answer> {
    /// The number of the refusal, 0 for none.
    pub fn number(&self) -> u8 {
        self.answer.as_ref().err().map_or(0, |refusal| refusal.0)
    }
}

/// The oracle's outcome.
pub fn outcome<O: Operation>(call: &O) -> Outcome<O::Answer> {
    let (bytes, indices) = call.alterable();
    let (mut bytes, mut indices) = (bytes.to_vec(), indices.to_vec());
    let answer = call.by_oracle(Slices {
        bytes: &mut bytes,
        indices: &mut indices,
    });
    Outcome {
        answer,
        bytes,
        indices,
    }
}

/// A call and the oracle's outcome.
#[derive(Clone, PartialEq, Debug)]
pub struct Asked<O: Operation> {
    pub call: O,
    pub outcome: Outcome<O::Answer>,
}

impl<O: Operation> Asked<O> {
    pub fn new(call: O) -> Self {
        let outcome = outcome(&call);
        Self { call, outcome }
    }
}

/// A call of whatever operation, with the oracle's outcome.
pub trait Case {
    fn name(&self) -> &'static str;
    fn document(&self) -> u8;
    fn number(&self) -> u8;
    /// The line of the stored answers without its judge and its end.
    fn line(&self) -> String;
    fn share(&self) -> usize;
    fn equation(&self) -> Option<String>;
    /// Whether it is compared with wellen.
    fn has_reference(&self) -> bool;
    /// Whether it is compared with the archive.
    fn is_exported(&self) -> bool;
    /// Who decides it in the stored answers: `w` where wellen answered, `d` where the documents alone do; none if they
    /// disagree.
    fn judge(&self) -> Option<char>;
    /// What wellen, the archive and the laws have against the outcome.
    fn disagreements(&self) -> Vec<String>;
    fn as_any(&self) -> &dyn Any;
}

impl<O: Operation> Case for Asked<O> {
    fn name(&self) -> &'static str {
        self.call.name()
    }

    fn document(&self) -> u8 {
        O::DOCUMENT
    }

    fn number(&self) -> u8 {
        self.outcome.number()
    }

    fn line(&self) -> String {
        crate::stored::line(&self.call, &self.outcome)
    }

    fn share(&self) -> usize {
        O::share(self.number())
    }

    fn equation(&self) -> Option<String> {
        self.call.equation(&self.outcome)
    }

    fn has_reference(&self) -> bool {
        cfg!(wellen) && self.call.is_in_domain()
    }

    fn is_exported(&self) -> bool {
        self.call.is_exported()
    }

    fn judge(&self) -> Option<char> {
        if !self.has_reference() {
            return Some('d');
        }
        let verdict = verdict(&self.call);
        let by_wellen = !matches!(verdict, Verdict::Beyond(_));
        let judge = if by_wellen { 'w' } else { 'd' };
        verdict.agrees(&self.call, &self.outcome).then_some(judge)
    }

    fn disagreements(&self) -> Vec<String> {
        check::disagreements(self)
    }

    fn as_any(&self) -> &dyn Any {
        self
    }
}

/// Reads the fields behind an operation's name, and asks the oracle.
pub type Parse = fn(&str, &mut Reader) -> Result<Box<dyn Case>, String>;

/// An operation in the list of all.
pub struct Listed {
    pub names: &'static [&'static str],
    pub numbers: &'static [u8],
    pub definitions: &'static [Module],
    pub parse: Parse,
    pub ask_of_record: fn(&mut Generator, &Used, &mut dyn Receiver),
    pub ask_aside: fn(&mut Generator, &mut dyn Receiver),
}

impl Listed {
    pub const fn of<O: Operation>() -> Self {
        Self {
            names: O::NAMES,
            numbers: O::NUMBERS,
            definitions: O::DEFINITIONS,
            parse: |name, fields| Ok(Box::new(Asked::new(O::parse(name, fields)?))),
            ask_of_record: O::ask_of_record,
            ask_aside: O::ask_aside,
        }
    }
}
