//! Look-ups beside the oracle, ranges beside a filter, and iterators beside a plain list.

use crate::judged;
use crate::random::Random;
use crate::records;
use std::ops::Bound;
use yoksimert::{Changes, DataOffset, FixedWidthEncoding, Refusal, Signal, States};

/// Lists that don't fall: of many indices or few, with runs of equal ones, at either end of the numbers too.
fn rising(random: &mut Random, longest: u32) -> Vec<u32> {
    let (length, greatest) = (random.below(longest + 1), random.pick(&[1, 4, 40, 3_000]));
    let base = random.pick(&[0, 0, 7, u32::MAX - greatest]);
    let mut indices: Vec<u32> = (0..length)
        .map(|_| base + random.below(greatest + 1))
        .collect();
    indices.sort_unstable();
    indices
}

/// Levels that tell the entry's number.
fn numbered(indices: &[u32]) -> Signal {
    let encoding = FixedWidthEncoding::BitVector {
        max_states: States::Two,
        width: 16,
    };
    let bytes = (0..indices.len() as u16).flat_map(u16::to_be_bytes);
    let bytes = bytes.collect();
    Signal::checked(indices.to_vec(), encoding, bytes).expect("the record is sound")
}

/// Indices worth seeking: all of the list, those beside them, and both ends.
fn sought(indices: &[u32]) -> Vec<u32> {
    let beside = indices
        .iter()
        .flat_map(|at| [at.saturating_sub(1), *at, at.saturating_add(1)]);
    let mut sought: Vec<u32> = beside.chain([0, 1, u32::MAX - 1, u32::MAX]).collect();
    sought.sort_unstable();
    sought.dedup();
    sought
}

fn assert_found(signal: &Signal, time_idx: u32) {
    let indices = signal.time_indices();
    let found = signal.get_offset(time_idx).map_err(judged::refusal);
    let expected = oracle::look_up(indices, time_idx);
    assert_eq!(found.map(|found| found.map(judged::offset)), expected);
    let last = indices.iter().rposition(|at| *at <= time_idx);
    let held = signal.value_at(time_idx).expect("no index falls");
    let held = held.map(|(since, value)| (since, u64::try_from(value)));
    assert_eq!(held, last.map(|entry| (indices[entry], Ok(entry as u64))));
}

#[test]
fn indices_are_found_as_by_the_oracle() {
    let mut random = Random::new(31);
    for round in 0..3_000 {
        let longest = if round % 50 == 0 { 2_000 } else { 30 };
        let signal = numbered(&rising(&mut random, longest));
        for time_idx in sought(signal.time_indices()) {
            assert_found(&signal, time_idx);
        }
    }
}

#[test]
fn every_short_list_is_looked_up() {
    for length in 0..=5u32 {
        for digits in 0..4u32.pow(length) {
            let list: Vec<u32> = (0..length).map(|at| digits >> (2 * at) & 3).collect();
            let encoding = FixedWidthEncoding::Event;
            let signal = records::stored(list.clone(), encoding, vec![]);
            for time_idx in 0..5 {
                let found = signal.get_offset(time_idx).map_err(judged::refusal);
                let expected = oracle::look_up(&list, time_idx);
                assert_eq!(found.map(|found| found.map(judged::offset)), expected);
            }
            let falls = !list.is_sorted();
            let range = signal.changes_in(..).map(|changes| changes.len());
            let expected = if falls {
                Err(Refusal::IndexFalls)
            } else {
                Ok(list.len())
            };
            assert_eq!(range, expected);
        }
    }
}

fn entries(changes: Changes<'_>) -> Vec<u64> {
    let values = changes.map(|change| change.expect("the record is sound").1);
    values
        .map(|value| u64::try_from(value).expect("a number"))
        .collect()
}

#[test]
fn ranges_are_filters() {
    let mut random = Random::new(32);
    for _ in 0..1_500 {
        let signal = numbered(&rising(&mut random, 20));
        let sought = sought(signal.time_indices());
        for _ in 0..40 {
            let mut bound = || {
                let at = random.pick(&sought);
                random.pick(&[Bound::Included(at), Bound::Excluded(at), Bound::Unbounded])
            };
            let range = (bound(), bound());
            let numbered = signal.time_indices().iter().zip(0..);
            let within = numbered.filter(|(at, _)| std::ops::RangeBounds::contains(&range, at));
            let expected: Vec<u64> = within.map(|(_, entry)| entry).collect();
            let changes = signal.changes_in(range).expect("no index falls");
            assert_eq!(changes.len(), expected.len(), "{range:?}");
            assert_eq!(entries(changes), expected, "{range:?}");
        }
    }
}

#[test]
fn ranges_are_written_in_every_way() {
    let signal = numbered(&[3, 5, 5, 9, u32::MAX]);
    let found = |changes: Result<Changes<'_>, Refusal>| entries(changes.expect("no index falls"));
    assert_eq!(found(signal.changes_in(..)), [0, 1, 2, 3, 4]);
    assert_eq!(found(signal.changes_in(5..9)), [1, 2]);
    assert_eq!(found(signal.changes_in(5..=9)), [1, 2, 3]);
    assert_eq!(found(signal.changes_in(..5)), [0]);
    assert_eq!(found(signal.changes_in(..=5)), [0, 1, 2]);
    assert_eq!(found(signal.changes_in(9..)), [3, 4]);
    assert_eq!(found(signal.changes_in(u32::MAX..)), [4]);
    assert_eq!(found(signal.changes_in(..=u32::MAX)), [0, 1, 2, 3, 4]);
    assert_eq!(found(signal.changes_in(0..0)), []);
    let (begin, end) = (9, 5);
    assert_eq!(found(signal.changes_in(begin..end)), []);
    let after = (Bound::Excluded(5), Bound::Unbounded);
    assert_eq!(found(signal.changes_in(after)), [3, 4]);
    let none = (Bound::Excluded(u32::MAX), Bound::Unbounded);
    assert_eq!(found(signal.changes_in(none)), []);
}

/// A change as text: values with NaN or bad codes differ from themselves.
fn shown(change: <Changes<'_> as Iterator>::Item) -> String {
    format!("{change:?}")
}

/// One step of an iterator, of those that go on from either end.
fn step<T>(
    random: &mut Random,
    kind: u32,
    iter: &mut impl DoubleEndedIterator<Item = T>,
) -> Option<T> {
    match kind {
        0 | 1 => iter.next(),
        2 | 3 => iter.next_back(),
        4 => iter.nth(random.below(4) as usize),
        5 => iter.nth_back(random.below(4) as usize),
        _ => iter.nth(random.pick(&[100, usize::MAX])),
    }
}

#[test]
fn changes_are_a_list_from_both_ends() {
    let mut random = Random::new(33);
    for _ in 0..10_000 {
        let signal = records::signal(&mut random);
        let entries = 0..signal.len();
        let list = entries.map(|entry| {
            let value = signal.get_entry(entry);
            shown(value.map(|value| (signal.time_indices()[entry], value)))
        });
        let list: Vec<String> = list.collect();
        let (mut changes, mut plain) = (signal.iter_changes(), list.iter());
        for _ in 0..8 {
            assert_eq!(changes.len(), plain.len());
            assert_eq!(changes.size_hint(), plain.size_hint());
            assert_eq!(changes.clone().count(), plain.len());
            let last = changes.clone().last().map(shown);
            assert_eq!(last.as_ref(), plain.clone().next_back());
            let rest: Vec<String> = changes.clone().rev().map(shown).collect();
            assert!(rest.iter().eq(plain.clone().rev()));
            let (kind, seed) = (random.below(20), random.next());
            let given = step(&mut Random::new(seed), kind, &mut changes).map(shown);
            let expected = step(&mut Random::new(seed), kind, &mut plain);
            assert_eq!(given.as_ref(), expected);
        }
        let last = signal.last_change().transpose().map(shown);
        assert_eq!(last.as_ref(), list.last());
    }
}

#[test]
fn an_offset_of_nowhere_is_refused() {
    let signal = numbered(&[3, 5]);
    let offset = DataOffset {
        start: usize::MAX,
        elements: u32::MAX,
        time_match: true,
        next_index: None,
    };
    assert_eq!(signal.get_time_idx_at(&offset), None);
    let value = signal.get_value_at(&offset, u32::MAX - 1);
    assert_eq!(value, Err(Refusal::NoSuchEntry));
}
