//! Look up.

use crate::generate::{Generator, Receiver};
use crate::operation::{Operation, Outcome, Slices};
use crate::stored::{Fields, Module, Reader, terms};
use oracle::{MAXIMUM, Offset, Refusal};
use reference::Used;
#[cfg(wellen)]
use {
    crate::by_wellen::Verdict,
    oracle::{Description, Encoding},
    reference::{Record, Refused},
};

#[derive(Clone, PartialEq, Eq, Debug)]
pub struct LookUp {
    pub indices: Vec<u32>,
    pub sought: u32,
}

impl Operation for LookUp {
    type Answer = Option<Offset>;

    const NAMES: &'static [&'static str] = &["lookup"];
    const NUMBERS: &'static [u8] = &[2, 11];
    const DEFINITIONS: &'static [Module] = &[
        Module::library("Rattle.std.specs.Prelude", "Some None", ""),
        Module::new("Rattle.offset.specs.Offset", ""),
    ];

    fn by_oracle(&self, _: Slices) -> Result<Option<Offset>, Refusal> {
        oracle::look_up(&self.indices, self.sought)
    }

    fn by_archive(&self, _: Slices) -> Result<Option<Offset>, Refusal> {
        archive::look_up(&self.indices, self.sought)
    }

    fn is_in_domain(&self) -> bool {
        self.indices.len() <= MAXIMUM as usize && self.indices.is_sorted()
    }

    #[cfg(wellen)]
    fn by_wellen(&self) -> Result<Verdict<Option<Offset>>, Refused> {
        by_wellen(&self.indices, self.sought)
    }

    fn is_wellens(answer: &Option<Offset>, wellens: &Option<Offset>) -> bool {
        is_wellens(answer, wellens)
    }

    fn smaller(&self) -> Vec<Self> {
        let sought = self.sought;
        let lists = smaller_lists(&self.indices).into_iter();
        lists.map(|indices| LookUp { indices, sought }).collect()
    }

    fn put(&self, out: &mut Fields) {
        out.hexadecimal(&self.indices);
        out.push(self.sought);
    }

    fn put_outcome(&self, outcome: &Outcome<Option<Offset>>, out: &mut Fields) {
        put_offset(outcome, out);
    }

    fn parse(_: &str, fields: &mut Reader) -> Result<Self, String> {
        Ok(LookUp {
            indices: fields.indices()?,
            sought: fields.number()?,
        })
    }

    fn equation(&self, outcome: &Outcome<Option<Offset>>) -> Option<String> {
        Some(equation("look_up", &self.indices, self.sought, outcome))
    }

    fn ask_of_record(from: &mut Generator, used: &Used, to: &mut dyn Receiver) {
        if from.random.once_in(4) {
            from.look_up_around(&used.indices, to);
        }
    }
}

#[cfg(wellen)]
pub(super) fn by_wellen(indices: &[u32], sought: u32) -> Result<Verdict<Option<Offset>>, Refused> {
    let events = Description::of(Encoding::Event, indices);
    let offset = Record::new(events, &[], indices)?.look_up(sought)?;
    Ok(Verdict::accepted(offset))
}

/// wellen has 16 bits for the number of entries.
pub(super) fn is_wellens(answer: &Option<Offset>, wellens: &Option<Offset>) -> bool {
    let shown = answer.map(|offset| Offset {
        elements: offset.elements % 65_536,
        ..offset
    });
    shown == *wellens
}

/// Each half, and the list without one of its indices.
pub(super) fn smaller_lists(indices: &[u32]) -> Vec<Vec<u32>> {
    let half = indices.len() / 2;
    let mut lists = vec![indices[half..].to_vec(), indices[..half].to_vec()];
    for at in 0..indices.len().min(64) {
        let mut list = indices.to_vec();
        list.remove(at);
        lists.push(list);
    }
    lists.retain(|list| list.len() < indices.len());
    lists
}

pub(super) fn put_offset(outcome: &Outcome<Option<Offset>>, out: &mut Fields) {
    let Ok(Some(Offset {
        start,
        elements,
        time_match,
        next_index,
    })) = outcome.answer
    else {
        return out.push("0 0 0 0 0 0");
    };
    let (equal, has_next) = (u8::from(time_match), u8::from(next_index.is_some()));
    let next = next_index.unwrap_or(0);
    out.push(format_args!(
        "1 {start} {elements} {equal} {has_next} {next}"
    ));
}

/// Between a definition of a list and a sought index, and the outcome.
pub(super) fn equation(
    definition: &str,
    indices: &[u32],
    sought: u32,
    outcome: &Outcome<Option<Offset>>,
) -> String {
    let value = |answer: &Option<Offset>| {
        let place = answer.as_ref().map(data_offset);
        place.map_or("None".to_string(), |offset| format!("(Some {offset})"))
    };
    let (list, reply) = (terms::list(indices), terms::reply(outcome, value));
    format!("{definition} {list} {sought} ≡ {reply}")
}

fn data_offset(offset: &Offset) -> String {
    let next = offset
        .next_index
        .map_or("None".to_string(), |index| format!("(Some {index})"));
    format!(
        "(record {{ start = {}; elements = {}; time_match = {}; next_index = {next} }})",
        offset.start, offset.elements, offset.time_match
    )
}

impl Generator {
    /// A list with runs of equal indices, now and then a falling one.
    pub(crate) fn list(&mut self, to: &mut dyn Receiver) {
        let mut index = self.random.pick(&[0, 0, 1, 5, u32::MAX - 3]);
        let mut indices = Vec::new();
        for _ in 0..self.random.below(24) {
            indices.push(index);
            index = index.saturating_add(self.random.pick(&[0, 0, 1, 1, 2, 7]));
        }
        if indices.len() > 1 && self.random.once_in(8) {
            let (at, with) = (
                self.random.below(indices.len()),
                self.random.below(indices.len()),
            );
            indices.swap(at, with);
        }
        self.look_up_around(&indices, to);
    }

    /// Around every index, at most 30 of them, and at the ends of the range.
    fn look_up_around(&mut self, indices: &[u32], to: &mut dyn Receiver) {
        let mut look_up = |sought| {
            to.call(LookUp {
                indices: indices.to_vec(),
                sought,
            });
        };
        look_up(0);
        look_up(u32::MAX);
        let mut before = None;
        for &index in indices.iter().filter(|_| indices.len() <= 30) {
            if before != Some(index) {
                look_up(index);
                look_up(index.saturating_sub(1));
                look_up(index.saturating_add(1));
            }
            before = Some(index);
        }
    }

    /// As many equal indices as a count of 16 bits wraps at, with others around them.
    pub(crate) fn long_list(&mut self, to: &mut dyn Receiver) {
        let equal = self
            .random
            .pick(&[65_535, 65_536, 65_537, 131_071, 131_072]);
        let mut indices: Vec<u32> = (0..self.random.below(3) as u32).collect();
        indices.extend(std::iter::repeat_n(7, equal));
        indices.extend((0..self.random.below(3) as u32).map(|more| 8 + more));
        for sought in [6, 7, 8] {
            to.call(LookUp {
                indices: indices.clone(),
                sought,
            });
        }
    }
}
