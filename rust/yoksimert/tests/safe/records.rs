//! Vectors that no writer made, through every call that reads, beside the oracle.

use crate::judged;
use crate::random::Random;
use oracle::Kind;
use std::collections::BTreeSet;
use yoksimert::{DataOffset, FixedWidthEncoding, Refusal, Signal, SignalValueRef, States};

const ROUNDS: u32 = 30_000;

/// A record of these lengths, whatever else it is.
pub fn stored(time_indices: Vec<u32>, encoding: FixedWidthEncoding, bytes: Vec<u8>) -> Signal {
    let signal = Signal::new_fixed_len(time_indices, encoding, bytes);
    signal.expect("the lengths stand")
}

/// Of a width among these, or a real, or an event.
fn encoding(random: &mut Random, widths: &[u32]) -> FixedWidthEncoding {
    match random.below(8) {
        0 => FixedWidthEncoding::Event,
        1 => FixedWidthEncoding::Real,
        _ => FixedWidthEncoding::BitVector {
            max_states: random.pick(&[States::Two, States::Four, States::Nine]),
            width: random.pick(widths),
        },
    }
}

/// Mostly small and sorted, so that many calls are accepted.
fn time_indices(random: &mut Random) -> Vec<u32> {
    let mut time_indices: Vec<u32> = (0..random.below(5)).map(|_| random.below(6)).collect();
    if !random.one_in(8) {
        time_indices.sort_unstable();
    }
    time_indices
}

/// Half of them with small codes and small marks, so that entries have texts.
fn bytes(random: &mut Random, length: usize) -> Vec<u8> {
    let mut bytes = random.bytes(length);
    if random.one_in(2) {
        bytes.iter_mut().for_each(|byte| *byte &= 0x53);
    }
    bytes
}

/// A record whose lengths are right, and nothing else need be.
pub fn signal(random: &mut Random) -> Signal {
    let encoding = encoding(random, &[1, 2, 3, 4, 5, 8, 9, 12, 64, 4_096]);
    let time_indices = time_indices(random);
    let size = encoding.bytes_per_entry().expect("the width stands");
    let bytes = bytes(random, time_indices.len() * size);
    stored(time_indices, encoding, bytes)
}

/// The calls' refusals, for the test to see that each came up.
#[derive(Default)]
struct Numbers(BTreeSet<u8>);

impl Numbers {
    fn note<T>(&mut self, answer: Result<T, Refusal>) -> Result<T, oracle::Refusal> {
        if let Err(refusal) = &answer {
            self.0.insert(refusal.number());
        }
        answer.map_err(judged::refusal)
    }
}

fn text(signal: &Signal, entry: u32, length: usize) -> Result<Vec<u8>, oracle::Refusal> {
    let mut out = vec![b'!'; length];
    let d = judged::description(signal);
    oracle::text(d, signal.bytes(), 0, entry, &mut out)?;
    Ok(out)
}

fn value(signal: &Signal, entry: u32, value: SignalValueRef, numbers: &mut Numbers) {
    let read = oracle::read(judged::description(signal), signal.bytes(), 0, entry);
    let read = read.expect("the value was given");
    match value {
        SignalValueRef::Event => assert_eq!((read.kind, read.part.len()), (Kind::Event, 0)),
        SignalValueRef::Real(real) => {
            assert_eq!(read.kind, Kind::Real);
            assert_eq!(real.to_le_bytes(), signal.bytes()[read.part]);
            assert_eq!(value.to_string(), real.to_string());
        }
        SignalValueRef::BitVec(levels) => {
            assert_eq!(read.states, judged::states(levels.states()));
            assert_eq!(levels.bytes(), &signal.bytes()[read.part]);
            let width = levels.width() as usize;
            let given = numbers.note(levels.bit_string());
            let expected = text(signal, entry, width);
            let shown = value.to_string();
            match &expected {
                Ok(expected) => assert_eq!(shown.as_bytes(), expected),
                Err(_) => assert_eq!(shown, "?".repeat(width)),
            }
            assert_eq!(value.to_bit_string(), given.clone().ok());
            assert_eq!(given.map(String::into_bytes), expected);
            for length in [width - 1, width, width + 1] {
                let mut out = vec![b'!'; length];
                let written = numbers.note(levels.write_bit_string(&mut out));
                assert_eq!(written.map(|()| out), text(signal, entry, length));
                let mut buffer = vec![b'!'; length];
                let shown = numbers.note(levels.bit_str(&mut buffer));
                let shown = shown.map(|text| text.as_bytes().to_vec());
                let expected = text(signal, entry, length).map(|text| text[..width].to_vec());
                assert_eq!(shown, expected);
            }
        }
    }
}

fn read(signal: &Signal, numbers: &mut Numbers) {
    let count = signal.time_indices().len();
    let d = judged::description(signal);
    for entry in (0..count as u32 + 1).chain([u32::MAX]) {
        let answer = signal.get_entry(entry as usize);
        if let Ok(given) = answer {
            value(signal, entry, given, numbers);
        }
        let expected = oracle::read(d, signal.bytes(), 0, entry).map(|_| ());
        assert_eq!(numbers.note(answer).map(|_| ()), expected);
    }
    assert_eq!(signal.iter_changes().count(), count);
    for (change, entry) in signal.iter_changes().zip(0..) {
        let expected = signal.get_entry(entry);
        assert_eq!(change.map(|_| ()), expected.map(|_| ()));
        if let Ok((time_idx, _)) = change {
            assert_eq!(time_idx, signal.time_indices()[entry]);
        }
    }
}

fn look_up(signal: &Signal, numbers: &mut Numbers) {
    for time_idx in (0..8).chain([u32::MAX]) {
        let answer = signal.get_offset(time_idx);
        if let Ok(Some(offset)) = &answer {
            let at = signal.get_time_idx_at(offset);
            assert_eq!(at == Some(time_idx), offset.time_match);
            for element in 0..offset.elements {
                let entry = offset.start + element as usize;
                let given = signal.get_value_at(offset, element).map(|_| ());
                assert_eq!(given, signal.get_entry(entry).map(|_| ()));
            }
            let beyond = signal.get_value_at(offset, offset.elements);
            assert_eq!(beyond, Err(Refusal::NoSuchEntry));
        }
        holds(signal, time_idx);
        let answer = numbers.note(answer).map(|found| found.map(judged::offset));
        assert_eq!(answer, oracle::look_up(signal.time_indices(), time_idx));
    }
}

/// The last entry whose index is not above the sought one, unless an index falls.
fn holds(signal: &Signal, time_idx: u32) {
    let held = signal.value_at(time_idx);
    let indices = signal.time_indices();
    if let Err(refusal) = oracle::look_up(indices, time_idx) {
        assert_eq!(held.map_err(judged::refusal), Err(refusal));
        return;
    }
    let last = indices.iter().rposition(|index| *index <= time_idx);
    let expected = last.map(|entry| Ok((indices[entry], signal.get_entry(entry)?)));
    let shown = |(index, value): (u32, SignalValueRef)| (index, format!("{value:?}"));
    assert_eq!(
        held.map(|held| held.map(shown)),
        expected.transpose().map(|expected| expected.map(shown))
    );
}

#[test]
fn arbitrary_vectors_are_read_as_by_the_oracle() {
    let mut random = Random::new(2);
    let mut numbers = Numbers::default();
    for _ in 0..ROUNDS {
        let signal = signal(&mut random);
        read(&signal, &mut numbers);
        look_up(&signal, &mut numbers);
    }
    assert_eq!(numbers.0, BTreeSet::from([7, 8, 9, 10, 11]));
}

/// Another signal, or one that differs little.
fn second(random: &mut Random, first: &Signal) -> Signal {
    let (mut bytes, mut time_indices) = (first.bytes().to_vec(), first.time_indices().to_vec());
    match random.below(5) {
        0 => return signal(random),
        1 if !bytes.is_empty() => {
            let at = random.below(bytes.len() as u32) as usize;
            bytes[at] ^= 1 << random.below(8);
        }
        2 if !time_indices.is_empty() => {
            bytes.truncate(bytes.len() - bytes.len() / time_indices.len());
            time_indices.pop();
        }
        _ => {}
    }
    stored(time_indices, first.encoding(), bytes)
}

#[test]
fn arbitrary_vectors_are_compared_as_by_the_oracle() {
    let mut random = Random::new(3);
    let mut numbers = Numbers::default();
    let mut answers = BTreeSet::new();
    for _ in 0..ROUNDS {
        let a = signal(&mut random);
        let b = second(&mut random, &a);
        let answer = a.compare(&b);
        assert_eq!(a == b, answer == Ok(true));
        answers.extend(answer);
        let expected = oracle::compare(&judged::record(&a), &judged::record(&b));
        assert_eq!(numbers.note(answer), expected);
    }
    assert_eq!(numbers.0, BTreeSet::from([9, 10]));
    assert_eq!(answers.len(), 2);
}

#[test]
fn arbitrary_offsets_are_refused() {
    let mut random = Random::new(4);
    let starts = [0, 1, 4, 5, u32::MAX as usize, usize::MAX];
    for _ in 0..ROUNDS {
        let signal = signal(&mut random);
        let offset = DataOffset {
            start: random.pick(&starts),
            elements: random.pick(&[0, 1, 2, u32::MAX]),
            time_match: random.one_in(2),
            next_index: None,
        };
        let element = random.pick(&[0, 1, u32::MAX - 1, u32::MAX]);
        let entry = offset.start as u128 + u128::from(element);
        let known = signal.time_indices().get(offset.start).copied();
        assert_eq!(signal.get_time_idx_at(&offset), known);
        let given = signal.get_value_at(&offset, element).map(|_| ());
        if element >= offset.elements || entry >= signal.len() as u128 {
            assert_eq!(given, Err(Refusal::NoSuchEntry));
        } else {
            assert_eq!(given, signal.get_entry(entry as usize).map(|_| ()));
        }
    }
}

#[test]
fn refusals_have_their_numbers() {
    let numbers: Vec<u8> = Refusal::ALL.iter().map(|r| r.number()).collect();
    assert!(numbers.is_sorted_by(|a, b| a < b), "{numbers:?}");
    for number in (0..=1_000).chain([u32::MAX - 1, u32::MAX]) {
        let refusal = Refusal::ALL
            .iter()
            .find(|r| u32::from(r.number()) == number);
        assert_eq!(Refusal::from_number(number), refusal.copied());
    }
    let text = Refusal::NoSuchEntry.to_string();
    assert_eq!(text, "the record has no such entry (refusal 8)");
}
