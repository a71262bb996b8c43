//! Generated derivations, and records derived by them, beside the oracle.

use crate::random::Random;
use crate::{judged, records};
use oracle::{Derivation, Input, Side, add_piece, empty_derivation};
use std::collections::BTreeSet;
use yoksimert::{
    Added, DerivedBitVecSignal, FixedWidthEncoding, MAXIMUM, Refusal, Signal, SignalWriter, States,
    transform_signal,
};

const ROUNDS: u32 = 20_000;

/// The oracle's pieces, by the names of their inputs.
fn pieces(d: &Derivation) -> Vec<(u32, u32, u32)> {
    let used = &d.pieces[..d.piece_count as usize];
    used.iter()
        .map(|packed| {
            let (input, width) = (packed >> 48, packed >> 32 & 0xffff);
            let lsb = packed & 0xffff_ffff;
            let msb = (lsb + width - 1) as u32;
            (d.inputs[input as usize], msb, lsb as u32)
        })
        .collect()
}

fn assert_same(derived: &DerivedBitVecSignal, judge: &Derivation) {
    assert_eq!(derived.width(), judge.width);
    let names = &judge.inputs[..judge.input_count as usize];
    assert_eq!(derived.inputs(), names);
    assert_eq!(derived.pieces().collect::<Vec<_>>(), pieces(judge));
}

/// A piece of a width that is mostly small.
fn range(random: &mut Random, widest: u32) -> (u32, u32) {
    let bound = match random.below(40) {
        0 => 4_200,
        1 => u32::MAX,
        _ => widest,
    };
    let (a, b) = (random.below(bound), random.below(bound));
    if random.one_in(40) {
        (a, b)
    } else {
        (a.max(b), a.min(b))
    }
}

/// Adds one piece to both, in one of the four ways.
fn add(
    random: &mut Random,
    derived: &mut DerivedBitVecSignal,
    judge: &mut Derivation,
    (name, widest): (u32, u32),
) -> Result<(), Refusal> {
    let (mut msb, mut lsb) = range(random, widest);
    let side = random.pick(&[Side::Left, Side::Right]);
    let full = random.one_in(4).then(|| random.pick(&[0, 1, widest]));
    if let Some(width) = full {
        (msb, lsb) = (width.saturating_sub(1), 0);
    }
    let answer = match (side, full) {
        (Side::Left, Some(width)) => derived.concat_left_full(name, width),
        (Side::Right, Some(width)) => derived.concat_right_full(name, width),
        (Side::Left, None) => derived.concat_left(name, msb, lsb),
        (Side::Right, None) => derived.concat_right(name, msb, lsb),
    };
    if full != Some(0) {
        let expected = add_piece(judge, side, name, msb, lsb);
        assert_eq!(answer.map_err(judged::refusal), expected.map(|_| ()));
        *judge = expected.unwrap_or(*judge);
    }
    assert_same(derived, judge);
    answer
}

#[test]
fn pieces_join_as_by_the_oracle() {
    let mut random = Random::new(5);
    let mut numbers = BTreeSet::new();
    for _ in 0..300 {
        let mut derived = DerivedBitVecSignal::new_slice(7, 3, 2).expect("the range stands");
        let start = add_piece(&empty_derivation(), Side::Left, 7, 3, 2);
        let mut judge = start.expect("the range stands");
        let names = random.pick(&[2, 12]);
        let widest = random.pick(&[1, 2, 9, 200]);
        for _ in 0..120 {
            let name = random.below(names).wrapping_mul(0x2492_4925);
            let answer = add(&mut random, &mut derived, &mut judge, (name, widest));
            numbers.extend(answer.err().map(Refusal::number));
        }
    }
    assert_eq!(numbers, BTreeSet::from([12, 13]));
}

#[test]
fn an_identity_is_of_a_bit_vector() {
    let encoding = |width| FixedWidthEncoding::BitVector {
        max_states: States::Two,
        width,
    };
    let all = DerivedBitVecSignal::new_identity(0, encoding(4_096)).expect("the width stands");
    assert!(all.pieces().eq([(0, 4_095, 0)]));
    for width in [0, 4_097, u32::MAX] {
        let refusal = DerivedBitVecSignal::new_identity(0, encoding(width)).err();
        assert_eq!(refusal, Some(Refusal::BadRange));
    }
    for encoding in [FixedWidthEncoding::Event, FixedWidthEncoding::Real] {
        let refusal = DerivedBitVecSignal::new_identity(0, encoding).err();
        assert_eq!(refusal, Some(Refusal::WrongKind));
    }
}

/// A record of a run that mostly starts at index 0.
fn recorded(random: &mut Random, width: u32) -> Signal {
    let mut writer = SignalWriter::new(width).expect("the width stands");
    let mut time_idx = u32::from(random.one_in(60));
    let levels = random.pick(&["01", "01xz", "01xzhuwl-"]).as_bytes();
    for _ in 0..random.below(8) + u32::from(!random.one_in(60)) {
        let string: Vec<u8> = (0..width).map(|_| random.pick(levels)).collect();
        assert!(writer.add_change(time_idx, &string[..]).is_ok());
        time_idx += random.below(3);
    }
    writer.finish()
}

/// What document 01 says of these records, one behind the other in shared slices.
fn judged_derive(d: &Derivation, signals: &[&Signal]) -> Result<Signal, oracle::Refusal> {
    let (mut bytes, mut indices, mut inputs) = (vec![], vec![], vec![]);
    for signal in signals {
        inputs.push(Input {
            description: judged::description(signal),
            byte_start: bytes.len(),
            index_start: indices.len(),
        });
        bytes.extend(signal.bytes());
        indices.extend(signal.time_indices());
    }
    let room = indices.len().max(1);
    let (mut out_bytes, mut out_indices) = (vec![0; room * 2_049], vec![0; room]);
    let made = oracle::derive(
        d,
        &inputs,
        &bytes,
        &indices,
        &mut out_bytes,
        &mut out_indices,
    )?;
    let list = oracle::derived_list(d, &inputs, &bytes, &indices);
    let oracle::Encoding::BitVector { width, max_states } = made.encoding else {
        panic!("a derived record is a bit vector");
    };
    let (description, bytes, indices) = oracle::derived_laid_out(width, max_states, &list);
    assert_eq!(description, made);
    let max_states = match max_states {
        oracle::States::Two => States::Two,
        oracle::States::Four => States::Four,
        oracle::States::Nine => States::Nine,
    };
    let encoding = FixedWidthEncoding::BitVector { max_states, width };
    Ok(records::stored(indices, encoding, bytes))
}

fn parts(signal: &Signal) -> (FixedWidthEncoding, &[u32], &[u8]) {
    (signal.encoding(), signal.time_indices(), signal.bytes())
}

/// A derivation of up to six pieces, and the oracle's.
fn derivation(random: &mut Random, width: u32) -> (DerivedBitVecSignal, Derivation) {
    let mut derived = DerivedBitVecSignal::new_slice(0, 0, 0).expect("the range stands");
    let start = add_piece(&empty_derivation(), Side::Left, 0, 0, 0);
    let mut judge = start.expect("the range stands");
    let names = random.below(8) + 1;
    for _ in 0..random.below(6) {
        let name = random.below(names);
        // Refused pieces are left out of both.
        let _ = add(random, &mut derived, &mut judge, (name, width));
    }
    (derived, judge)
}

/// Records for so many inputs, of which now and then some are spoilt or one is too many.
fn inputs(random: &mut Random, count: usize, width: u32) -> Vec<Signal> {
    let spoilt = random.one_in(8);
    let count = count + usize::from(random.one_in(40));
    let mut one = |_| {
        if spoilt && random.one_in(2) {
            records::signal(random)
        } else {
            recorded(random, width)
        }
    };
    (0..count).map(&mut one).collect()
}

#[test]
fn records_are_derived_as_by_the_oracle() {
    let mut random = Random::new(6);
    let mut numbers = BTreeSet::new();
    for _ in 0..ROUNDS {
        let width = random.pick(&[1, 2, 3, 4, 5, 8, 9, 33]);
        let (derived, judge) = derivation(&mut random, width);
        let signals = inputs(&mut random, derived.inputs().len(), width);
        let signals: Vec<&Signal> = signals.iter().collect();
        let answer = transform_signal(&derived, &signals);
        numbers.insert(
            answer
                .as_ref()
                .map_or_else(|refusal| refusal.number(), |_| 0),
        );
        let expected = judged_derive(&judge, &signals);
        match (&answer, &expected) {
            (Ok(given), Ok(expected)) => assert_eq!(parts(given), parts(expected)),
            (Err(given), Err(expected)) => assert_eq!(given.number(), expected.0),
            _ => panic!("{answer:?} and not {expected:?}"),
        }
    }
    assert_eq!(numbers, BTreeSet::from([0, 9, 10, 11, 14, 15]));
}

#[test]
fn there_is_one_record_for_each_input() {
    let mut writer = SignalWriter::new(1).expect("the width stands");
    writer.add_change(0, "1").expect("the change stands");
    let one = writer.finish();
    let mut derived = DerivedBitVecSignal::new_slice(1, 0, 0).expect("the range stands");
    for inputs in 1..=8 {
        for records in [0, 1, 2, 7, 8, 9, 100] {
            let answer = transform_signal(&derived, &vec![&one; records]);
            let refusal = (records != inputs).then_some(Refusal::BadDerivation);
            assert_eq!(answer.err(), refusal, "{inputs} inputs, {records} records");
        }
        let ninth = derived.concat_right(inputs as u32 + 1, 0, 0);
        let refusal = (inputs == 8).then_some(Refusal::DerivationFull);
        assert_eq!(ninth.err(), refusal);
    }
}

/// Two clocks at odds change at more time indices than either has.
#[test]
fn a_derived_record_grows_to_the_maximum() {
    let clock = |first, changes| {
        let mut writer = SignalWriter::new(1).expect("the width stands");
        writer.add_change(0, "0").expect("the change stands");
        for at in 1..=changes {
            let string = ["0", "1"][at as usize % 2];
            let answer = writer.add_change(first + 2 * at, string);
            assert_eq!(answer, Ok(Added::Kept));
        }
        writer.finish()
    };
    let mut both = DerivedBitVecSignal::new_slice(1, 0, 0).expect("the range stands");
    both.concat_right(2, 0, 0).expect("there is room");
    let half = MAXIMUM as u32 / 2;
    let (even, odd) = (clock(0, half), clock(1, half - 1));
    let derived = transform_signal(&both, &[&even, &odd]).expect("there is room");
    assert_eq!(derived.time_indices().len(), MAXIMUM);
    let odd = clock(1, half);
    let answer = transform_signal(&both, &[&even, &odd]);
    assert_eq!(answer.err(), Some(Refusal::NoRoom));
}
