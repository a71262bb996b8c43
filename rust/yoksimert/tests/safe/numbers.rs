//! Numbers: every width, set and refusal beside the oracle, both ends, and the conversions of values.

use crate::judged;
use crate::random::Random;
use crate::records;
use oracle::Form;
use std::collections::BTreeSet;
use yoksimert::{
    DerivedBitVecSignal, FixedWidthEncoding, Refusal, Signal, SignalValueRef, SignalWriter, States,
    transform_signal,
};

const SETS: [States; 3] = [States::Two, States::Four, States::Nine];
const WIDTHS: std::ops::RangeInclusive<u32> = 1..=70;

fn of_levels(levels: &str) -> Signal {
    let mut writer = SignalWriter::new(levels.len() as u32).expect("the width stands");
    writer.add_change(0, levels).expect("the levels stand");
    writer.finish()
}

fn stored(width: u32, max_states: States, bytes: &[u8]) -> Signal {
    let encoding = FixedWidthEncoding::BitVector { max_states, width };
    records::stored(vec![0], encoding, bytes.to_vec())
}

/// These levels behind an `x` or a `u`, which a slice then drops: an entry that is marked Four or Nine, as its input was, and holds the
/// levels alone.
fn derived(levels: &str, states: States) -> Signal {
    let other = match states {
        States::Two => "0",
        States::Four => "x",
        States::Nine => "u",
    };
    let (input, msb) = (of_levels(&format!("{other}{levels}")), levels.len() - 1);
    let slice = DerivedBitVecSignal::new_slice(0, msb as u32, 0).expect("the range stands");
    let signal = transform_signal(&slice, &[&input]).expect("the record stands");
    let own = signal.get_entry(0).expect("there is an entry").states();
    assert_eq!(own, Some(states));
    signal
}

/// An entry in the three forms.
type Answers = [Result<i128, Refusal>; 3];

fn numbers(signal: &Signal, entry: usize) -> Answers {
    [
        signal.get_unsigned(entry).map(i128::from),
        signal.get_signed(entry).map(i128::from),
        signal.get_decimal(entry).map(i128::from),
    ]
}

/// The same by the oracle, whose answers these must be.
fn judged(signal: &Signal, entry: usize) -> Answers {
    let (d, at) = (
        judged::description(signal),
        u32::try_from(entry).unwrap_or(u32::MAX),
    );
    let answers = numbers(signal, entry);
    for (form, answer) in [Form::Unsigned, Form::Signed, Form::Decimal]
        .into_iter()
        .zip(&answers)
    {
        let expected = oracle::number(form, d, signal.bytes(), 0, at);
        assert_eq!(answer.map_err(judged::refusal), expected, "{form:?}");
    }
    answers
}

/// The conversions of a value give what the calls do, or an error where these are refused.
fn assert_converted(signal: &Signal, answers: &Answers) {
    let value = signal.get_entry(0).expect("there is an entry");
    let levels = value.as_bit_vec().expect("a bit vector");
    let (unsigned, signed) = (u64::try_from(value), i64::try_from(value));
    assert_eq!(unsigned.map(i128::from), answers[0].map_err(|_| ()));
    assert_eq!(signed.map(i128::from), answers[1].map_err(|_| ()));
    assert_eq!(u64::try_from(levels), unsigned);
    assert_eq!(i64::try_from(levels), signed);
    let told = [
        levels.unsigned().map(i128::from),
        levels.signed().map(i128::from),
        levels.decimal().map(i128::from),
    ];
    assert_eq!(told, *answers);
}

/// What the levels say in a word of 64 bits, or the refusal of their number.
fn expected(levels: &str) -> Answers {
    if levels.len() > 64 {
        return [Err(Refusal::WrongWidth); 3];
    }
    let word = u64::from_str_radix(levels, 2).expect("levels 0 and 1");
    let above = 64 - levels.len();
    let signed = ((word << above) as i64) >> above;
    let digits: Option<String> = (0..levels.len() / 4)
        .rev()
        .map(|place| char::from_digit((word >> (4 * place)) as u32 & 15, 10))
        .collect();
    let decimal = match digits {
        _ if levels.len() % 4 != 0 => Err(Refusal::WrongWidth),
        None => Err(Refusal::NotDecimal),
        Some(digits) => Ok(digits.parse().expect("digits")),
    };
    [Ok(word.into()), Ok(signed.into()), decimal]
}

#[test]
fn every_width_and_set_is_read() {
    let mut random = Random::new(11);
    for width in WIDTHS.chain([4_096]) {
        for digits in [2, 10] {
            let levels = some_levels(&mut random, width as usize, digits);
            for states in SETS.into_iter().filter(|_| width < 4_096) {
                let signal = derived(&levels, states);
                let answers = judged(&signal, 0);
                assert_eq!(answers, expected(&levels), "{levels} {states:?}");
                assert_converted(&signal, &answers);
            }
            let signal = of_levels(&levels);
            assert_eq!(judged(&signal, 0), expected(&levels), "{levels}");
        }
    }
}

/// Levels 0 and 1 without order, or those of decimal digits.
fn some_levels(random: &mut Random, width: usize, base: u32) -> String {
    let digit = |random: &mut Random| match base {
        10 => format!("{:04b}", random.below(10)),
        _ => random.below(2).to_string(),
    };
    let mut levels = String::new();
    while levels.len() < width {
        levels.insert_str(0, &digit(random));
    }
    levels.split_off(levels.len() - width)
}

#[test]
fn both_ends_are_reached() {
    let answers = |levels: &str| numbers(&of_levels(levels), 0);
    let (ones, zeros) = ("1".repeat(63), "0".repeat(63));
    let [unsigned, signed, decimal] = answers(&format!("1{ones}"));
    assert_eq!((unsigned, signed), (Ok(u64::MAX.into()), Ok(-1)));
    assert_eq!(decimal, Err(Refusal::NotDecimal));
    let [unsigned, signed, decimal] = answers(&format!("1{zeros}"));
    assert_eq!((unsigned, signed), (Ok(1 << 63), Ok(i64::MIN.into())));
    assert_eq!(decimal, Ok(8_000_000_000_000_000));
    let [unsigned, signed, _] = answers(&format!("0{ones}"));
    assert_eq!((unsigned, signed), (Ok((1 << 63) - 1), Ok(i64::MAX.into())));
    assert_eq!(answers(&"1001".repeat(16))[2], Ok(9_999_999_999_999_999));
    assert_eq!(answers(&"0".repeat(64)), [Ok(0); 3]);
    let wrong = Err(Refusal::WrongWidth);
    assert_eq!(answers("1"), [Ok(1), Ok(-1), wrong]);
    assert_eq!(answers("0"), [Ok(0), Ok(0), wrong]);
}

#[test]
fn another_level_at_any_place_is_refused() {
    for width in WIDTHS {
        for (place, other) in (0..width as usize).zip("xzhuwl-XZHUWL".chars().cycle()) {
            let mut levels = vec!['1'; width as usize];
            levels[place] = other;
            let signal = of_levels(&levels.iter().collect::<String>());
            let answers = judged(&signal, 0);
            let wide = width > 64;
            let [binary, decimal] = [wide, wide || width % 4 != 0].map(|wrong| match wrong {
                true => Err(Refusal::WrongWidth),
                false => Err(Refusal::NotBinary),
            });
            assert_eq!(answers, [binary, binary, decimal], "{width} {place}");
            assert_converted(&signal, &answers);
        }
    }
}

#[test]
fn a_digit_above_9_at_any_place_is_refused() {
    for digits in 1..=16 {
        for place in 0..digits {
            for digit in 0..16 {
                let mut levels = vec!["1001".to_string(); digits];
                levels[place] = format!("{digit:04b}");
                let [unsigned, _, decimal] = judged(&of_levels(&levels.concat()), 0);
                assert!(unsigned.is_ok());
                let refused = (digit > 9).then_some(Refusal::NotDecimal);
                assert_eq!(decimal.err(), refused, "{digits} {place} {digit}");
            }
        }
    }
}

#[test]
fn refusals_come_in_their_order() {
    let all = |refusal| [Err(refusal); 3];
    for (encoding, size) in [
        (FixedWidthEncoding::Real, 8),
        (FixedWidthEncoding::Event, 0),
    ] {
        let signal = records::stored(vec![0], encoding, vec![0; size]);
        assert_eq!(judged(&signal, 9), all(Refusal::WrongKind));
    }
    // Mark 3, a code that is no level's, levels `-` and digits above 9, at a width above 64 and at one that is a number's.
    for width in [4_096usize, 64] {
        let entry = |mark: u8, levels: u8| [vec![mark], vec![levels; width / 2]].concat();
        let answers = |entry: &[u8], at| judged(&stored(width as u32, States::Nine, entry), at);
        assert_eq!(answers(&entry(0xc0, 0x99), 1), all(Refusal::NoSuchEntry));
        assert_eq!(
            answers(&entry(0xc0, 0x99), usize::MAX),
            all(Refusal::NoSuchEntry)
        );
        assert_eq!(answers(&entry(0xc0, 0x99), 0), all(Refusal::BadMark));
        assert_eq!(answers(&entry(0x80, 0x99), 0), all(Refusal::BadCode));
        let refusal = match width {
            64 => Refusal::NotBinary,
            _ => Refusal::WrongWidth,
        };
        assert_eq!(answers(&entry(0x80, 0x88), 0), all(refusal));
    }
    let late = of_levels(&format!("{}x", "1".repeat(63)));
    assert_eq!(judged(&late, 0), all(Refusal::NotBinary));
    assert_eq!(judged(&of_levels("1111"), 0)[2], Err(Refusal::NotDecimal));
}

#[test]
fn arbitrary_vectors_are_numbers_as_by_the_oracle() {
    let mut random = Random::new(12);
    let mut found = BTreeSet::new();
    for _ in 0..30_000 {
        let signal = records::signal(&mut random);
        for entry in 0..=signal.time_indices().len() {
            let answers = judged(&signal, entry);
            found.extend(answers.map(|answer| answer.err().map_or(0, Refusal::number)));
        }
    }
    assert_eq!(found, BTreeSet::from([0, 3, 8, 9, 10, 16, 17, 18]));
}

#[test]
fn whole_reals_are_signed_numbers() {
    let number = |real| i64::try_from(SignalValueRef::Real(real));
    assert_eq!(number(3.0), Ok(3));
    assert_eq!(number(-3.0), Ok(-3));
    assert_eq!(number(-0.0), Ok(0));
    assert_eq!(number(-(2f64.powi(63))), Ok(i64::MIN));
    assert_eq!(number(2f64.powi(62)), Ok(1 << 62));
    for other in [
        2.5,
        -0.5,
        2f64.powi(63),
        -(2f64.powi(64)),
        1e300,
        f64::NAN,
        f64::INFINITY,
        f64::NEG_INFINITY,
    ] {
        assert_eq!(number(other), Err(()), "{other}");
    }
    assert_eq!(i64::try_from(SignalValueRef::Event), Err(()));
}
