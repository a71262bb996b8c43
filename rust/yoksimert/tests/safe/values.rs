//! Values: levels as numbers, reals, events, and which of them are equal.

use crate::random::Random;
use crate::records;
use yoksimert::{FixedWidthEncoding, Signal, SignalValueRef, SignalWriter, States};

fn of_levels(levels: &str) -> Signal {
    let mut writer = SignalWriter::new(levels.len() as u32).expect("the width stands");
    writer.add_change(0, levels).expect("the levels stand");
    writer.finish()
}

fn value(signal: &Signal) -> SignalValueRef<'_> {
    signal.get_entry(0).expect("there is an entry")
}

fn with<T>(levels: &str, take: impl FnOnce(SignalValueRef) -> T) -> T {
    take(value(&of_levels(levels)))
}

/// A record of one entry, whatever its bytes are.
fn stored(width: u32, max_states: States, bytes: &[u8]) -> Signal {
    let encoding = FixedWidthEncoding::BitVector { max_states, width };
    records::stored(vec![0], encoding, bytes.to_vec())
}

#[test]
fn levels_of_0_and_1_are_numbers() {
    let number = |levels: &str| with(levels, |value| u64::try_from(value).ok());
    assert_eq!(number("0"), Some(0));
    assert_eq!(number("1010"), Some(10));
    assert_eq!(number(&"1".repeat(64)), Some(u64::MAX));
    assert_eq!(number(&format!("0{}", "1".repeat(64))), None);
    assert_eq!(number(&"1".repeat(65)), None);
    for other in ["x", "1z", "-1", "h", "1-"] {
        assert_eq!(number(other), None, "{other}");
    }
}

#[test]
fn a_level_of_0_or_1_is_a_truth_value() {
    let truth = |levels: &str| with(levels, |value| bool::try_from(value).ok());
    assert_eq!(truth("0"), Some(false));
    assert_eq!(truth("1"), Some(true));
    for other in ["x", "h", "l", "01", "00"] {
        assert_eq!(truth(other), None, "{other}");
    }
}

#[test]
fn reals_and_events_are_no_levels() {
    for value in [SignalValueRef::Event, SignalValueRef::Real(1.0)] {
        assert_eq!(bool::try_from(value), Err(()));
        assert_eq!(value.to_bit_string(), None);
        assert_eq!(value.states(), None);
        assert_eq!(value.as_bit_vec(), None);
    }
    assert_eq!(SignalValueRef::Event.width(), Some(0));
    assert_eq!(SignalValueRef::Real(1.0).width(), None);
    with("01x", |value| assert_eq!(value.width(), Some(3)));
    assert!(SignalValueRef::Event.is_event());
    assert!(!SignalValueRef::Real(1.0).is_event());
    with("0", |value| assert!(!value.is_event()));
    assert_eq!(SignalValueRef::Event.to_string(), "Event");
    assert_eq!(SignalValueRef::Real(1.5).to_string(), "1.5");
    assert_eq!(String::from(SignalValueRef::Real(1.5)), "1.5");
    with("0X", |value| assert_eq!(String::from(value), "0x"));
}

#[test]
fn whole_reals_are_numbers() {
    let number = |real| u64::try_from(SignalValueRef::Real(real));
    assert_eq!(number(3.0), Ok(3));
    assert_eq!(number(-0.0), Ok(0));
    assert_eq!(number(2f64.powi(63)), Ok(1 << 63));
    for other in [
        2.5,
        -1.0,
        2f64.powi(64),
        1e300,
        f64::NAN,
        f64::INFINITY,
        f64::NEG_INFINITY,
    ] {
        assert_eq!(number(other), Err(()), "{other}");
    }
    assert_eq!(u64::try_from(SignalValueRef::Event), Err(()));
}

#[test]
fn numbers_that_are_doubles_are_reals() {
    let real = |levels: &str| with(levels, |value| f64::try_from(value).ok());
    assert_eq!(real("1010"), Some(10.0));
    assert_eq!(real(&format!("1{}", "0".repeat(63))), Some(2f64.powi(63)));
    let between = format!("1{}1", "0".repeat(52));
    for other in [&between[..], &"1".repeat(64), &"1".repeat(65), "x", "1-"] {
        assert_eq!(real(other), None, "{other}");
    }
    assert_eq!(f64::try_from(SignalValueRef::Real(2.5)), Ok(2.5));
    assert_eq!(f64::try_from(SignalValueRef::Event), Err(()));
}

#[test]
fn values_are_equal_by_kind_and_levels() {
    let [low, again, high, wide, unknown] = ["01", "01", "10", "001", "0x"].map(of_levels);
    assert_eq!(value(&low), value(&again));
    for other in [&high, &wide, &unknown] {
        assert_ne!(value(&low), value(other));
    }
    assert_eq!(SignalValueRef::Event, SignalValueRef::Event);
    assert_eq!(SignalValueRef::Real(0.0), SignalValueRef::Real(-0.0));
    let nan = SignalValueRef::Real(f64::NAN);
    assert_ne!(nan, nan);
    assert_ne!(SignalValueRef::Real(1.0), SignalValueRef::Event);
    assert_ne!(value(&low), SignalValueRef::Event);
    // `0x` in an entry of its own mark, and in one with a byte for the mark.
    let narrow = stored(2, States::Four, &[0x42]);
    let raised = stored(2, States::Nine, &[0x40, 0x02]);
    assert_eq!(value(&narrow), value(&raised));
}

/// Every entry beside every other, of two records at a time.
#[test]
fn values_are_equal_by_their_texts() {
    let mut random = Random::new(81);
    let mut equals = 0;
    for _ in 0..20_000 {
        let [a, b] = [0; 2].map(|_| records::signal(&mut random));
        for (a, b) in [(&a, &a), (&a, &b)] {
            for (_, x) in a.iter_changes().flatten() {
                for (_, y) in b.iter_changes().flatten() {
                    let (Some(x), Some(y)) = (x.as_bit_vec(), y.as_bit_vec()) else {
                        continue;
                    };
                    let texts = (x.bit_string(), y.bit_string());
                    let equal = matches!(&texts, (Ok(x), Ok(y)) if x == y);
                    assert_eq!(x == y, equal, "{texts:?}");
                    equals += u32::from(equal);
                }
            }
        }
    }
    assert!(equals > 20_000, "{equals}");
}

#[test]
fn a_code_that_is_no_levels_equals_nothing() {
    let [bad, again] = [[0x89], [0x89]].map(|bytes| stored(1, States::Nine, &bytes));
    assert_ne!(value(&bad), value(&bad));
    assert_ne!(value(&bad), value(&again));
    assert_eq!(value(&bad).to_bit_string(), None);
    assert_eq!(value(&bad).to_string(), "?");
    assert_eq!(u64::try_from(value(&bad)), Err(()));
    assert_eq!(bool::try_from(value(&bad)), Err(()));
}

#[test]
fn the_bytes_are_the_records_own() {
    let stray = stored(1, States::Two, &[0x43]);
    let levels = value(&stray).as_bit_vec().expect("a bit vector");
    assert_eq!(levels.be_bytes(), Some(&[0x43][..]));
    assert_eq!(u64::try_from(levels), Ok(1));
}

#[test]
fn the_part_of_the_levels_is_given() {
    with("x01", |value| {
        let levels = value.as_bit_vec().expect("a bit vector");
        assert_eq!((levels.bytes(), levels.be_bytes()), (&[0x61][..], None));
    });
    with("101000001", |value| {
        let levels = value.as_bit_vec().expect("a bit vector");
        assert_eq!(levels.be_bytes(), Some(&[1, 0x41][..]));
        assert_eq!(
            format!("{value:>11}|{value:<11}|"),
            "  101000001|101000001  |"
        );
    });
}
