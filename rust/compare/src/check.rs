//! Each call through the oracle, through the archive and, where wellen is there and in its domain, through wellen.

use crate::by_wellen::{Verdict, verdict};
use crate::generate::Receiver;
use crate::operation::{Asked, Case, Operation, Outcome, outcome};
use crate::stored::line;
use crate::{by_archive, shrink};
use oracle::Fed;
use reference::Used;
use std::collections::BTreeMap;

/// How the calls of one operation went.
#[derive(Clone, Copy, Default, Debug)]
pub struct Counts {
    pub accepted: u64,
    pub refused: u64,
    /// With wellen.
    pub compared: u64,
    /// With the archive.
    pub archive: u64,
}

#[derive(Default)]
pub struct Checker {
    pub counts: BTreeMap<&'static str, Counts>,
    /// Runs of bit-vector changes from Fresh.
    pub runs: u64,
    pub disagreements: Vec<String>,
}

impl Checker {
    pub fn compared(&self) -> u64 {
        self.counts.values().map(|counts| counts.compared).sum()
    }

    pub fn compared_with_archive(&self) -> u64 {
        self.counts.values().map(|counts| counts.archive).sum()
    }

    pub fn report(&mut self, law: &str, found: String) {
        self.disagreements.push(format!("{law}: {found}"));
    }
}

impl Receiver for Checker {
    fn take(&mut self, case: &dyn Case) {
        let counts = self.counts.entry(case.name()).or_default();
        match case.number() {
            0 => counts.accepted += 1,
            _ => counts.refused += 1,
        }
        counts.compared += u64::from(case.has_reference());
        counts.archive += u64::from(case.is_exported());
        self.disagreements.extend(case.disagreements());
    }

    fn run(&mut self, width: u32, fed: &[Fed], left: &Used) {
        self.runs += 1;
        if !is_left_by_live_writer(width, fed, left) {
            self.report(
                "wellen's live writer",
                format!("width {width}, {fed:?}\n  left {left:?}"),
            );
        }
        let history = oracle::history(fed);
        let (description, bytes, indices) = oracle::history_laid_out(width, &history);
        let laid_out = Used {
            description,
            bytes,
            indices,
        };
        if laid_out != *left {
            self.report(
                "after every run the record is its history laid out",
                format!("width {width}, {fed:?}\n  left {left:?}\n  laid out {laid_out:?}"),
            );
        }
    }
}

/// Whether one writer that takes all the accepted changes leaves the record.
#[cfg(wellen)]
fn is_left_by_live_writer(width: u32, fed: &[Fed], left: &Used) -> bool {
    let mut writer = reference::Writer::fresh(width);
    let mut accepted = fed.iter().filter(|fed| fed.accepted);
    accepted.all(|fed| writer.add_change(fed.index, &fed.change).is_ok())
        && writer.description() == left.description
        && writer.bytes() == left.bytes
        && writer.indices() == left.indices
}

#[cfg(not(wellen))]
fn is_left_by_live_writer(_: u32, _: &[Fed], _: &Used) -> bool {
    true
}

/// What wellen, the archive and document 01's laws have against the oracle's outcome of a call, each at a smaller call
/// that it holds for too.
pub fn disagreements<O: Operation>(asked: &Asked<O>) -> Vec<String> {
    let (call, found) = (&asked.call, &asked.outcome);
    let mut out = Vec::new();
    if wellen_disagrees(call, found) {
        let least = shrink::smallest(call, |call| wellen_disagrees(call, &outcome(call)));
        out.push(disagreement("wellen", &least, &wellens(&least)));
    }
    if archive_disagrees(call, found) {
        let least = shrink::smallest(call, |call| archive_disagrees(call, &outcome(call)));
        out.push(disagreement("archive", &least, &archives(&least)));
    }
    if let Some(law) = broken_law(call, found) {
        out.push(format!("{law}: {}", line(call, found)));
    }
    out
}

/// The oracle's outcome and another's, in the form of the stored answers.
fn disagreement<O: Operation>(whose: &str, call: &O, other: &str) -> String {
    let ours = line(call, &outcome(call));
    format!("{whose}: \n  oracle: {ours}\n  {whose}: {other}")
}

fn wellen_disagrees<O: Operation>(call: &O, outcome: &Outcome<O::Answer>) -> bool {
    cfg!(wellen) && call.is_in_domain() && !verdict(call).agrees(call, outcome)
}

fn wellens<O: Operation>(call: &O) -> String {
    match verdict(call) {
        Verdict::Accepted(outcome) => line(call, &outcome),
        Verdict::Refused => "refused".to_string(),
        Verdict::Beyond(oracle::Refusal(number)) => format!("refused with {number}, by a limit"),
    }
}

/// The archive takes every call of its operations, so none is left out.
fn archive_disagrees<O: Operation>(call: &O, outcome: &Outcome<O::Answer>) -> bool {
    call.is_exported() && by_archive::outcome(call).as_ref() != Ok(outcome)
}

fn archives<O: Operation>(call: &O) -> String {
    match by_archive::outcome(call) {
        Ok(outcome) => line(call, &outcome),
        Err(message) => message,
    }
}

/// The oracle's own laws, in wellen's domain or not.
fn broken_law<O: Operation>(call: &O, outcome: &Outcome<O::Answer>) -> Option<&'static str> {
    let (bytes, indices) = call.alterable();
    match outcome.answer {
        Ok(_) => call.broken_law(outcome),
        Err(_) if outcome.bytes == bytes && outcome.indices == indices => None,
        Err(_) => Some("on every refusal the slices are unchanged"),
    }
}
