//! Fresh.

use crate::generate::{Generator, Receiver};
use crate::operation::{Operation, Outcome, Slices};
use crate::stored::{Fields, Module, Reader, terms};
use oracle::{Description, MAX_WIDTH, Refusal};
#[cfg(wellen)]
use {
    crate::by_wellen::Verdict,
    reference::{Refused, Writer},
};

#[derive(Clone, PartialEq, Eq, Debug)]
pub struct Fresh {
    pub width: u32,
}

impl Operation for Fresh {
    type Answer = Description;

    const NAMES: &'static [&'static str] = &["fresh"];
    const NUMBERS: &'static [u8] = &[1];
    const DEFINITIONS: &'static [Module] = &[];

    fn by_oracle(&self, _: Slices) -> Result<Description, Refusal> {
        oracle::fresh(self.width)
    }

    /// By both calls that there are.
    fn by_archive(&self, _: Slices) -> Result<Description, Refusal> {
        let made = archive::fresh(self.width);
        let lent = archive::recorder_fresh(self.width);
        assert_eq!(lent, made, "by the recorder lent");
        made
    }

    fn is_in_domain(&self) -> bool {
        self.width <= MAX_WIDTH
    }

    #[cfg(wellen)]
    fn by_wellen(&self) -> Result<Verdict<Description>, Refused> {
        Ok(Verdict::accepted(Writer::fresh(self.width).description()))
    }

    fn put(&self, out: &mut Fields) {
        out.push(self.width);
    }

    fn put_outcome(&self, outcome: &Outcome<Description>, out: &mut Fields) {
        out.made(&outcome.answer);
    }

    fn parse(_: &str, fields: &mut Reader) -> Result<Self, String> {
        let width = fields.number()?;
        Ok(Fresh { width })
    }

    fn equation(&self, outcome: &Outcome<Description>) -> Option<String> {
        Some(format!("fresh {} ≡ {}", self.width, terms::made(outcome)))
    }
}

impl Generator {
    /// Widths around the greatest, and any.
    pub(crate) fn fresh_beyond(&mut self, to: &mut dyn Receiver) {
        let any = self.random.number() as u32;
        let width = self
            .random
            .pick(&[0, 4_095, 4_096, 4_097, 4_098, u32::MAX, any]);
        to.call(Fresh { width });
    }
}
