//! A varied choice of calls for the stored answers.

use crate::generate::{Generator, Receiver, Size};
use crate::operation::Case;
use crate::{operations, rows};
use std::collections::{BTreeMap, HashSet};

/// So many scenarios in a row without a new line end the choice.
const IDLE: usize = 10_000;
/// Lines above this length are kept in a small number for each operation, above the next one never.
const LONG: usize = 3_000;
const LONGEST: usize = 24_000;
const LONG_LINES: usize = 6;

/// About `count` lines: of each document its rows and edges, then generated calls.
pub fn lines(seed: u64, count: usize) -> Result<Vec<String>, String> {
    let mut keeper = Keeper {
        count,
        ..Keeper::default()
    };
    for document in operations::DOCUMENTS {
        keeper.choose(*document, seed);
    }
    keeper.finish()
}

/// Keeps so many calls at most of each operation, number and judge, and no line twice.
#[derive(Default)]
struct Keeper {
    count: usize,
    /// Calls of other documents are passed over.
    document: u8,
    lines: Vec<String>,
    seen: HashSet<String>,
    kept: BTreeMap<(&'static str, u8, char), usize>,
    long: BTreeMap<&'static str, usize>,
    idle: usize,
    disagreement: Option<String>,
}

impl Keeper {
    fn choose(&mut self, document: u8, seed: u64) {
        (self.document, self.idle) = (document, 0);
        rows::rows_and_edges(self);
        let mut generator = Generator::new(seed, Size::Small);
        while self.idle < IDLE {
            self.idle += 1;
            generator.scenario(self);
        }
    }

    fn keep(&mut self, case: &dyn Case, judge: char) {
        let (operation, line) = (case.name(), case.line());
        let (kept, share) = if line.len() > LONG {
            (self.long.entry(operation).or_default(), LONG_LINES)
        } else {
            let alike = (operation, case.number(), judge);
            (
                self.kept.entry(alike).or_default(),
                self.count / case.share(),
            )
        };
        if *kept < share && line.len() <= LONGEST && self.seen.insert(line.clone()) {
            *kept += 1;
            self.idle = 0;
            self.lines.push(format!("{judge} {line}"));
        }
    }

    fn finish(self) -> Result<Vec<String>, String> {
        if let Some(disagreement) = self.disagreement {
            return Err(format!("wellen and the oracle disagree: {disagreement}"));
        }
        let is_kept = |number: &u8| self.kept.keys().any(|(_, kept, _)| kept == number);
        match operations::numbers().iter().find(|number| !is_kept(number)) {
            Some(number) => Err(format!("no call was refused with {number}: raise --count")),
            None => Ok(self.lines),
        }
    }
}

impl Receiver for Keeper {
    fn take(&mut self, case: &dyn Case) {
        if case.document() != self.document {
            return;
        }
        match case.judge() {
            Some(judge) => self.keep(case, judge),
            None => self.disagreement = Some(case.line()),
        }
    }
}
