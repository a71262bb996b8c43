//! Any lengths, any numbers and any bytes through Derive and through the safe calls: none panics, and on a refusal the slices are as they
//! were.

use crate::hostile::{Lent, ROUNDS, description, judged, number, start};
use crate::random::Random;
use std::collections::BTreeSet;
use yoksimert::raw::{self, FlatDerivation, FlatDescription, FlatInput, FlatInputs, FlatMade};
use yoksimert::{
    DataOffset, DerivedBitVecSignal, FixedWidthEncoding, Signal, SignalWriter, States, Unsound,
    transform_signal,
};

fn inputs(random: &mut Random) -> FlatInputs {
    FlatInputs {
        count: random.pick(&[0, 1, 1, 1, 2, 8, 9, u32::MAX]),
        inputs: std::array::from_fn(|_| FlatInput {
            description: FlatDescription {
                kind: random.pick(&[2, 2, 2, 2, 0, 3]),
                ..description(random)
            },
            byte_start: start(random, 40),
            index_start: start(random, 9),
        }),
    }
}

/// A derivation of any numbers, or of one piece.
fn derivation(random: &mut Random) -> (FlatDerivation, [u32; 8], [u64; 64]) {
    let (mut names, mut pieces) = ([0; 8], [0; 64]);
    if random.one_in(3) {
        names = std::array::from_fn(|_| number(random, 4));
        pieces = std::array::from_fn(|_| random.next() >> random.below(40));
        let derivation = FlatDerivation {
            width: number(random, 70),
            input_count: number(random, 9),
            piece_count: number(random, 65),
        };
        return (derivation, names, pieces);
    }
    let msb = random.below(3);
    let empty = FlatDerivation::default();
    let joined = raw::concat_left(empty, &mut names, &mut pieces, 5, msb, 0);
    (joined.next, names, pieces)
}

#[test]
fn derivations_are_made_or_refused() {
    let mut random = Random::new(75);
    let mut numbers = BTreeSet::new();
    for _ in 0..ROUNDS {
        let (lent, inputs) = (Lent::new(&mut random), inputs(&mut random));
        let (derivation, names, pieces) = derivation(&mut random);
        let room = random.pick(&[0, 1, 30]);
        let before = random.bytes(room);
        let before_indices: Vec<u32> = (0..random.pick(&[0, 1, 9])).collect();
        let (mut out, mut out_indices) = (before.clone(), before_indices.clone());
        let FlatMade {
            number,
            description,
        } = raw::derive(
            derivation,
            &names,
            &pieces,
            inputs,
            &lent.bytes,
            &lent.indices,
            &mut out,
            &mut out_indices,
        );
        if number == 0 {
            assert!(judged(description).is_some());
            assert!(description.count as usize <= out_indices.len());
        } else {
            assert_eq!((out, out_indices), (before, before_indices));
        }
        numbers.insert(number);
    }
    assert_eq!(numbers, BTreeSet::from([0, 2, 7, 9, 10, 11, 14, 15]));
}

/// Vectors, of which half have lengths that fit.
fn vectors(random: &mut Random) -> (Vec<u32>, FixedWidthEncoding, Vec<u8>) {
    let Lent { bytes, indices, .. } = Lent::new(random);
    let encoding = match random.below(4) {
        0 => FixedWidthEncoding::Event,
        1 => FixedWidthEncoding::Real,
        _ => FixedWidthEncoding::BitVector {
            max_states: random.pick(&[States::Two, States::Four, States::Nine]),
            width: number(random, 12),
        },
    };
    let size = encoding.bytes_per_entry().unwrap_or(1);
    let fitting = random.one_in(2).then_some(indices.len() * size);
    let length = fitting.unwrap_or(bytes.len());
    let bytes = bytes.into_iter().cycle().take(length).collect();
    (indices, encoding, bytes)
}

/// Every call that reads, with any numbers.
fn asked(random: &mut Random, signal: &Signal) -> String {
    let any = number(random, 9);
    let offset = DataOffset {
        start: start(random, 9),
        elements: number(random, 9),
        time_match: false,
        next_index: None,
    };
    let entry = start(random, 9);
    let texts = signal
        .iter_changes()
        .map(|change| Some(change.ok()?.1.to_string()));
    let texts: Vec<_> = texts.collect();
    let numbers = (
        signal.get_unsigned(entry),
        signal.get_signed(entry),
        signal.get_decimal(entry),
    );
    let found = (signal.get_offset(any), signal.value_at(any));
    let within = signal.changes_in(any..).map(|changes| changes.rev().nth(1));
    let value = (signal.get_entry(entry), signal.get_value_at(&offset, any));
    let place = signal.get_time_idx_at(&offset);
    format!("{signal:?} {texts:?} {numbers:?} {found:?} {within:?} {value:?} {place:?}")
}

/// Whatever vectors a service has, the safe calls answer, and the same each time.
#[test]
fn safe_calls_answer_whatever_they_are_given() {
    let mut random = Random::new(76);
    let (mut taken, mut derivations) = (0, 0);
    for _ in 0..ROUNDS {
        let (indices, encoding, bytes) = vectors(&mut random);
        let checked = Signal::checked(indices.clone(), encoding, bytes.clone());
        let Ok(signal) = Signal::new_fixed_len(indices, encoding, bytes) else {
            assert!(checked.is_err());
            continue;
        };
        taken += 1;
        let seed = random.next();
        let shown = asked(&mut Random::new(seed), &signal);
        if let Ok(checked) = &checked {
            assert_eq!(asked(&mut Random::new(seed), checked), shown);
        }
        let any = number(&mut random, 9);
        let slice = |msb| DerivedBitVecSignal::new_slice(any, msb, 0);
        let two = slice(any).and_then(|slice| transform_signal(&slice, &[&signal, &signal]));
        assert!(two.is_err(), "two records for one input");
        let lowest = slice(0).and_then(|slice| transform_signal(&slice, &[&signal]));
        if let Ok(derived) = lowest {
            let (indices, encoding, bytes) = derived.into_parts();
            assert_eq!(Signal::checked(indices, encoding, bytes).err(), None);
            derivations += 1;
        }
        let fault = match SignalWriter::resume(signal) {
            Ok(mut writer) => writer.add_change(any, "01").err().and(None),
            Err(refused) => Some(refused.fault),
        };
        match fault {
            None | Some(Unsound::SpareBits(_)) => assert!(checked.is_ok()),
            fault => assert_eq!(checked.err(), fault),
        }
    }
    assert!(taken > ROUNDS / 5, "{taken}");
    assert!(derivations > 0, "none begins at 0");
}
