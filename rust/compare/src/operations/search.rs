//! Search.

use super::look_up::{self, equation, put_offset, smaller_lists};
use crate::generate::{Generator, Receiver, Size};
use crate::operation::{Operation, Outcome, Slices};
use crate::stored::{Fields, Module, Reader};
use oracle::{MAXIMUM, Offset, Refusal};
#[cfg(wellen)]
use {crate::by_wellen::Verdict, reference::Refused};

#[derive(Clone, PartialEq, Eq, Debug)]
pub struct Search {
    pub indices: Vec<u32>,
    pub sought: u32,
}

impl Operation for Search {
    type Answer = Option<Offset>;

    const NAMES: &'static [&'static str] = &["search"];
    const NUMBERS: &'static [u8] = &[2];
    const DEFINITIONS: &'static [Module] = &[Module::new("Rattle.search.specs.Quartering", "")];
    const DOCUMENT: u8 = 0;

    fn by_oracle(&self, _: Slices) -> Result<Option<Offset>, Refusal> {
        oracle::search(&self.indices, self.sought)
    }

    fn by_archive(&self, _: Slices) -> Result<Option<Offset>, Refusal> {
        archive::search(&self.indices, self.sought)
    }

    fn is_in_domain(&self) -> bool {
        self.indices.len() <= MAXIMUM as usize && self.indices.is_sorted()
    }

    #[cfg(wellen)]
    fn by_wellen(&self) -> Result<Verdict<Option<Offset>>, Refused> {
        look_up::by_wellen(&self.indices, self.sought)
    }

    fn is_wellens(answer: &Option<Offset>, wellens: &Option<Offset>) -> bool {
        look_up::is_wellens(answer, wellens)
    }

    /// It is Look up where no index falls.
    fn broken_law(&self, outcome: &Outcome<Option<Offset>>) -> Option<&'static str> {
        let looked_up = oracle::look_up(&self.indices, self.sought);
        let differs = looked_up != Err(Refusal(11)) && looked_up != outcome.answer;
        differs.then_some("Search is Look up where no index falls")
    }

    fn smaller(&self) -> Vec<Self> {
        let sought = self.sought;
        let lists = smaller_lists(&self.indices).into_iter();
        lists.map(|indices| Search { indices, sought }).collect()
    }

    fn put(&self, out: &mut Fields) {
        out.hexadecimal(&self.indices);
        out.push(self.sought);
    }

    fn put_outcome(&self, outcome: &Outcome<Option<Offset>>, out: &mut Fields) {
        put_offset(outcome, out);
    }

    fn parse(_: &str, fields: &mut Reader) -> Result<Self, String> {
        Ok(Search {
            indices: fields.indices()?,
            sought: fields.number()?,
        })
    }

    fn equation(&self, outcome: &Outcome<Option<Offset>>) -> Option<String> {
        Some(equation("search", &self.indices, self.sought, outcome))
    }

    fn ask_aside(from: &mut Generator, to: &mut dyn Receiver) {
        let indices = from.list_to_search();
        for _ in 0..3 {
            let near = indices.get(from.random.below(indices.len() + 1)).copied();
            let sought = from.near(near.unwrap_or(0));
            to.call(Search {
                indices: indices.clone(),
                sought,
            });
        }
    }
}

/// Lengths around which a list is counted or quartered, or searched for its run in a further reach.
const TURNS: &[usize] = &[
    0, 1, 2, 8, 9, 10, 15, 16, 17, 18, 19, 20, 64, 65, 66, 67, 68, 512, 513, 514,
];

impl Generator {
    /// A list with runs of one entry, of some or of very many; one in four has indices without order.
    fn list_to_search(&mut self) -> Vec<u32> {
        let length = match self.random.below(8) {
            0 => self.random.pick(TURNS),
            1 => self.random.below(1_500),
            _ => self.random.below(70),
        };
        // The checker computes a stored list by the definitions, and takes long for a long one.
        let length = match self.size {
            Size::Small => length.min(68),
            Size::Full => length,
        };
        let steps: &[u32] = self.random.pick(&[
            &[0, 1][..],
            &[1, 2, 7],
            &[0, 0, 0, 1],
            &[0, 0, 0, 0, 0, 0, 0, 0, 0, 0, 0, 0, 0, 0, 0, 0, 0, 0, 0, 1],
            &[0],
        ]);
        let mut index: u32 = self.random.pick(&[0, 0, 1, 5, u32::MAX - 40]);
        let mut indices = Vec::with_capacity(length);
        for _ in 0..length {
            indices.push(index);
            index = index.saturating_add(self.random.pick(steps));
        }
        if length > 1 && self.random.once_in(4) {
            for _ in 0..self.random.from_to(1, length) {
                let (at, with) = (self.random.below(length), self.random.below(length));
                indices.swap(at, with);
            }
        }
        indices
    }

    /// An index, or one beside it, or an end of the range.
    fn near(&mut self, index: u32) -> u32 {
        match self.random.below(8) {
            0 => 0,
            1 => u32::MAX,
            2 | 3 => index.saturating_add(1),
            4 => index.saturating_sub(1),
            _ => index,
        }
    }
}
