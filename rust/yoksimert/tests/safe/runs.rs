//! Generated runs of changes through a writer and through the oracle.

use crate::judged;
use crate::random::Random;
use oracle::{Change, Description};
use std::collections::BTreeSet;
use yoksimert::{Added, FstSignalValue, SignalWriter};

const RUNS: u32 = 4_000;
const LONGEST: u32 = 40;

fn string(random: &mut Random, width: u32) -> Vec<u8> {
    let levels = random.pick(&["01", "01xz", "01XZ", "01xzhuwl-", "HUWL-", "01q"]);
    let length = match random.below(30) {
        0 => width + 1,
        1 => width.saturating_sub(1),
        _ => width,
    };
    (0..length)
        .map(|_| random.pick(levels.as_bytes()))
        .collect()
}

fn change(random: &mut Random, width: Option<u32>) -> Change {
    let real = if random.one_in(20) {
        width.is_some()
    } else {
        width.is_none()
    };
    if real {
        let reals = [0.0, -0.0, 1.5, f64::NAN, f64::INFINITY];
        Change::Real(random.pick(&reals).to_bits())
    } else {
        Change::Text(string(random, width.unwrap_or(8)))
    }
}

/// The oracle's record, in slices that have room for every change.
struct Judge {
    next: Description,
    bytes: Vec<u8>,
    indices: Vec<u32>,
}

impl Judge {
    fn new(next: Description) -> Self {
        Self {
            next,
            bytes: vec![0; LONGEST as usize * 2_049],
            indices: vec![0; LONGEST as usize],
        }
    }

    fn add(&mut self, index: u32, change: &Change) -> Result<Added, oracle::Refusal> {
        let (bytes, indices, before) = (&mut self.bytes, &mut self.indices, self.next.count);
        self.next = oracle::add_change(self.next, bytes, 0, indices, 0, index, change)?;
        Ok(if self.next.count == before {
            Added::Dropped
        } else {
            Added::Kept
        })
    }
}

/// One run; the numbers of its refusals are noted.
fn run(random: &mut Random, numbers: &mut BTreeSet<u8>) {
    let widths = [0, 1, 2, 3, 4, 5, 7, 8, 9, 16, 33, 64, 65, 4_096];
    let width = (!random.one_in(8)).then(|| random.pick(&widths));
    let (mut writer, mut judge) = match width {
        None => (SignalWriter::new_real(), Judge::new(oracle::fresh_real())),
        Some(width) => {
            let made = oracle::fresh(width).expect("the width stands");
            let writer = SignalWriter::new(width).expect("the width stands");
            (writer, Judge::new(made))
        }
    };
    let mut index = 0;
    for _ in 0..random.below(LONGEST) {
        index += random.below(3);
        let offered = index.saturating_sub(random.pick(&[0, 0, 0, 4]));
        let change = change(random, width);
        let value = match &change {
            Change::Text(string) => FstSignalValue::String(string),
            Change::Real(bits) => FstSignalValue::Real(f64::from_bits(*bits)),
        };
        let answer = writer.add_change(offered, value).map_err(judged::refusal);
        assert_eq!(answer, judge.add(offered, &change), "{change:?}");
        numbers.extend(answer.err().map(|refusal| refusal.0));
    }
    let signal = writer.finish();
    assert_eq!(judged::description(&signal), judge.next);
    assert_eq!(
        signal.time_indices(),
        &judge.indices[..signal.time_indices().len()]
    );
    let (used, rest) = judge.bytes.split_at(signal.bytes().len());
    assert_eq!(signal.bytes(), used);
    assert!(rest.iter().all(|byte| *byte == 0), "bytes were left out");
}

#[test]
fn runs_end_in_the_oracles_records() {
    let mut random = Random::new(1);
    let mut numbers = BTreeSet::new();
    for _ in 0..RUNS {
        run(&mut random, &mut numbers);
    }
    assert_eq!(numbers, BTreeSet::from([3, 4, 5, 6]));
}

#[test]
fn every_width_is_taken_or_refused_as_by_the_oracle() {
    for width in (0..=5_000).chain([65_536, u32::MAX]) {
        let made = SignalWriter::new(width).map(|writer| judged::description(&writer.finish()));
        assert_eq!(made.map_err(judged::refusal), oracle::fresh(width));
    }
}
