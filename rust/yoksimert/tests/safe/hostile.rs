//! Any lengths, any numbers and any bytes through the plain calls on records: none panics, what the oracle refuses is refused, and the
//! slices are then as they were. `anything` puts Derive and the safe calls through the same.

use crate::random::Random;
use oracle::{Change, Description, Encoding, Form, Record};
use std::collections::BTreeSet;
use yoksimert::MAXIMUM;
use yoksimert::raw::{self, FlatDescription, FlatOffset, FlatRecord};

pub const ROUNDS: u32 = 60_000;
const EDGES: [u32; 14] = [
    0,
    1,
    2,
    3,
    63,
    64,
    65,
    4_095,
    4_096,
    4_097,
    1_048_576,
    1_048_577,
    u32::MAX - 1,
    u32::MAX,
];

pub fn number(random: &mut Random, bound: u32) -> u32 {
    match random.below(8) {
        0 => random.pick(&EDGES),
        1 => random.next() as u32,
        _ => random.below(bound),
    }
}

pub fn start(random: &mut Random, length: usize) -> usize {
    match random.below(10) {
        0 => random.pick(&[length, length + 1, usize::MAX - 1, usize::MAX]),
        1 => random.next() as usize,
        _ => random.below(3) as usize,
    }
}

pub fn description(random: &mut Random) -> FlatDescription {
    let kind = random.pick(&[0, 1, 2, 2, 2, 2, 2, 3, u32::MAX]);
    let is_plain = kind < 2 && !random.one_in(6);
    let (width, set) = match is_plain {
        true => (0, 0),
        false => (number(random, 12), random.pick(&[0, 1, 2, 2, 3, u32::MAX])),
    };
    FlatDescription::new(kind, width, set, number(random, 6))
}

/// The oracle's description, if the numbers are one.
pub fn judged(flat: FlatDescription) -> Option<Description> {
    let max_states = match flat.set {
        0 => oracle::States::Two,
        1 => oracle::States::Four,
        2 => oracle::States::Nine,
        _ => return None,
    };
    let encoding = match (flat.kind, flat.width, flat.set) {
        (0, 0, 0) => Encoding::Event,
        (1, 0, 0) => Encoding::Real,
        (2, width, _) => Encoding::BitVector { width, max_states },
        _ => return None,
    };
    Some(Description::counting(encoding, flat.count))
}

/// Lent slices, a start in each, and a description that may have nothing to do with them.
pub struct Lent {
    pub flat: FlatDescription,
    pub bytes: Vec<u8>,
    pub byte_start: usize,
    pub indices: Vec<u32>,
    pub index_start: usize,
}

impl Lent {
    pub fn new(random: &mut Random) -> Self {
        let length = random.below(40) as usize;
        let mut bytes = random.bytes(length);
        if random.one_in(2) {
            bytes.iter_mut().for_each(|byte| *byte &= 0x53);
        }
        let count = random.below(9);
        let mut indices: Vec<u32> = (0..count).map(|_| number(random, 9)).collect();
        if random.one_in(2) {
            indices.sort_unstable();
        }
        Self {
            flat: description(random),
            byte_start: start(random, bytes.len()),
            index_start: start(random, indices.len()),
            bytes,
            indices,
        }
    }

    fn flat_record(&self) -> FlatRecord<'_> {
        FlatRecord {
            description: self.flat,
            bytes: &self.bytes,
            byte_start: self.byte_start,
            indices: &self.indices,
            index_start: self.index_start,
        }
    }

    fn record(&self) -> Option<Record<'_>> {
        Some(Record {
            description: judged(self.flat)?,
            bytes: &self.bytes,
            byte_start: self.byte_start,
            indices: &self.indices,
            index_start: self.index_start,
        })
    }
}

/// The number of an oracle's answer; numbers that are no description are 2.
fn judge<T>(
    d: Option<Description>,
    call: impl FnOnce(Description) -> Result<T, oracle::Refusal>,
) -> u32 {
    match d.map(call) {
        None => 2,
        Some(Ok(_)) => 0,
        Some(Err(refusal)) => refusal.0.into(),
    }
}

#[test]
fn entries_are_read_or_refused() {
    let mut random = Random::new(71);
    let mut numbers = BTreeSet::new();
    for _ in 0..ROUNDS {
        let lent = Lent::new(&mut random);
        let (flat, bytes, at, d) = (lent.flat, &lent.bytes, lent.byte_start, judged(lent.flat));
        let entry = number(&mut random, 6);
        let read = raw::read(flat, bytes, at, entry);
        let expected = judge(d, |d| oracle::read(d, bytes, at, entry));
        assert_eq!(read.number, expected);
        assert!(read.start.checked_add(read.length) <= Some(bytes.len()));
        let before = random.bytes(20);
        let (mut out, mut other) = (before.clone(), before.clone());
        let text = raw::text(flat, bytes, at, entry, &mut out);
        let expected = judge(d, |d| oracle::text(d, bytes, at, entry, &mut other));
        assert_eq!((text, &out), (expected, &other));
        assert!(text == 0 || out == before, "a refused text is not written");
        let forms = [
            (Form::Unsigned, raw::unsigned(flat, bytes, at, entry).number),
            (Form::Signed, raw::signed(flat, bytes, at, entry).number),
            (Form::Decimal, raw::decimal(flat, bytes, at, entry).number),
        ];
        for (form, given) in forms {
            let expected = judge(d, |d| oracle::number(form, d, bytes, at, entry));
            assert_eq!(given, expected, "{form:?}");
            numbers.insert(given);
        }
        numbers.extend([read.number, text]);
    }
    let all = [0, 2, 3, 7, 8, 9, 10, 16, 17, 18];
    assert_eq!(numbers, BTreeSet::from(all));
}

/// A string of about the width, or a real.
fn change(random: &mut Random, width: u32) -> Change {
    if random.one_in(4) {
        return Change::Real(random.next());
    }
    let length = width.min(70) + u32::from(random.one_in(8));
    let letters = random.pick(&["01", "01xz", "01xzhuwl-", "01q\u{7f}"]);
    Change::Text(
        (0..length)
            .map(|_| random.pick(letters.as_bytes()))
            .collect(),
    )
}

/// What is left of the slices and the description, and the number.
type Left = (u32, Option<Description>, Vec<u8>, Vec<u32>);

fn added(lent: &Lent, index: u32, change: &Change) -> Left {
    let (mut flat, at, index_at) = (lent.flat, lent.byte_start, lent.index_start);
    let (mut bytes, mut indices) = (lent.bytes.clone(), lent.indices.clone());
    let (lent_bytes, lent_indices) = (&mut bytes[..], &mut indices[..]);
    let number = match change {
        Change::Text(string) => raw::recorder_add_change(
            &mut flat,
            lent_bytes,
            at,
            lent_indices,
            index_at,
            index,
            string,
        ),
        Change::Real(bits) => raw::recorder_add_real(
            &mut flat,
            lent_bytes,
            at,
            lent_indices,
            index_at,
            index,
            *bits,
        ),
    };
    assert!(number == 0 || flat == lent.flat);
    (number, judged(flat), bytes, indices)
}

fn added_by_the_oracle(lent: &Lent, index: u32, change: &Change) -> Left {
    let (mut bytes, mut indices) = (lent.bytes.clone(), lent.indices.clone());
    let (at, index_at) = (lent.byte_start, lent.index_start);
    let mut next = judged(lent.flat);
    let number = judge(next, |d| {
        let (bytes, indices) = (&mut bytes, &mut indices);
        let added = oracle::add_change(d, bytes, at, indices, index_at, index, change)?;
        next = Some(added);
        Ok(())
    });
    let refused = number != 0;
    assert!(!refused || (&bytes, &indices) == (&lent.bytes, &lent.indices));
    (number, next, bytes, indices)
}

#[test]
fn changes_are_added_or_refused() {
    let mut random = Random::new(72);
    let mut numbers = BTreeSet::new();
    for _ in 0..ROUNDS {
        let lent = Lent::new(&mut random);
        let change = change(&mut random, lent.flat.width);
        let index = number(&mut random, 12);
        let left = added(&lent, index, &change);
        assert_eq!(left, added_by_the_oracle(&lent, index, &change));
        numbers.insert(left.0);
    }
    assert_eq!(numbers, BTreeSet::from([0, 2, 3, 4, 5, 6, 7]));
}

#[test]
fn records_are_compared_or_refused() {
    let mut random = Random::new(73);
    let mut numbers = BTreeSet::new();
    for _ in 0..ROUNDS {
        let (a, b) = (Lent::new(&mut random), Lent::new(&mut random));
        for (a, b) in [(&a, &a), (&a, &b)] {
            let answer = raw::compare(a.flat_record(), b.flat_record());
            let expected = match (a.record(), b.record()) {
                (Some(a), Some(b)) => oracle::compare(&a, &b).map_err(|refusal| refusal.0.into()),
                _ => Err(2),
            };
            let given = match answer.number {
                0 => Ok(answer.equal),
                number => Err(number),
            };
            assert_eq!(given, expected);
            numbers.insert(answer.number);
        }
    }
    assert_eq!(numbers, BTreeSet::from([0, 2, 9, 10]));
}

#[test]
fn lists_are_looked_up_or_refused() {
    let mut random = Random::new(74);
    for _ in 0..ROUNDS {
        let Lent { indices, .. } = Lent::new(&mut random);
        let sought = number(&mut random, 12);
        let looked_up = raw::look_up(&indices, sought);
        assert_answers(looked_up, oracle::look_up(&indices, sought));
        let searched = raw::search(&indices, sought);
        assert_answers(searched, oracle::search(&indices, sought));
    }
}

fn assert_answers(answer: FlatOffset, expected: Result<Option<oracle::Offset>, oracle::Refusal>) {
    let number = expected.map_or_else(|refusal| refusal.0.into(), |_| 0);
    assert_eq!(answer.number, number);
    let found = expected.ok().flatten();
    assert_eq!(answer.found, found.is_some());
    assert_eq!(answer.start, found.map_or(0, |found| found.start));
    assert_eq!(answer.elements, found.map_or(0, |found| found.elements));
    assert_eq!(
        answer.time_match,
        found.is_some_and(|found| found.time_match)
    );
    let next = found.and_then(|found| found.next_index);
    assert_eq!(answer.has_next, next.is_some());
    assert_eq!(answer.next_index, next.unwrap_or(0));
}

#[test]
fn longer_lists_are_refused() {
    let indices = vec![1; MAXIMUM + 1];
    assert_eq!(raw::look_up(&indices[1..], 1).elements, MAXIMUM as u32);
    assert_eq!(raw::look_up(&indices, 1).number, 2);
    assert_eq!(raw::search(&indices[1..], 1).elements, MAXIMUM as u32);
    assert_eq!(raw::search(&indices, 1).number, 2);
    let events = |count| FlatRecord {
        description: FlatDescription::new(0, 0, 0, count),
        bytes: &[],
        byte_start: 0,
        indices: &indices,
        index_start: 0,
    };
    let (longest, longer) = (events(MAXIMUM as u32), events(MAXIMUM as u32 + 1));
    assert_eq!(raw::compare(longest, longest).number, 0);
    assert_eq!(raw::compare(longest, longer).number, 2);
    assert_eq!(raw::read(longest.description, &[], 0, 7).number, 0);
    assert_eq!(raw::read(longer.description, &[], 0, 7).number, 2);
}

/// Whatever a recorder was, it is fresh or as it was.
#[test]
fn any_recorder_is_made_fresh() {
    let mut random = Random::new(77);
    for _ in 0..ROUNDS {
        let (was, width) = (description(&mut random), number(&mut random, 5_000));
        let mut recorder = was;
        let answer = raw::recorder_fresh(&mut recorder, width);
        let made = raw::fresh(width);
        assert_eq!(answer, if width > 4_096 { 1 } else { 0 });
        assert_eq!(made.number, answer);
        let left = if answer == 0 { made.description } else { was };
        assert_eq!(recorder, left);
        assert_eq!(raw::recorder_fresh_real(&mut recorder), 0);
        assert_eq!(recorder, raw::fresh_real());
    }
}
