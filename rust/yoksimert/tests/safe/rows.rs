//! The rows and edges of document 01, each beside what it prints.

use crate::records;
use yoksimert::{
    Added, DerivedBitVecSignal, FixedWidthEncoding, Refusal, Signal, SignalValueRef, SignalWriter,
    States, transform_signal,
};

/// The record of these strings, at 0, 1, 2 and on.
fn recorded(width: u32, strings: &[&str]) -> Signal {
    let mut writer = SignalWriter::new(width).expect("the width stands");
    for (string, time_idx) in strings.iter().zip(0..) {
        assert!(writer.add_change(time_idx, *string).is_ok(), "{string}");
    }
    writer.finish()
}

#[test]
fn rows_1_to_7_are_packed_so() {
    let rows: [(u32, &[&str], &[u8]); 8] = [
        (1, &["1"], &[0x01]),
        (1, &["x", "X"], &[0x42]),
        (3, &["x01"], &[0x61]),
        (3, &["x01", "hz1"], &[0x40, 0x21, 0x84, 0x31]),
        (4, &["1010"], &[0x0a]),
        (4, &["1010", "10xz"], &[0x00, 0x0a, 0x40, 0x4b]),
        (5, &["0000x"], &[0x40, 0x02]),
        (2, &["u-"], &[0x80, 0x58]),
    ];
    for (width, strings, bytes) in rows {
        let signal = recorded(width, strings);
        assert_eq!(signal.bytes(), bytes, "{strings:?}");
        let last = signal.iter_changes().last().expect("a change was kept");
        let text = last.expect("the entry is read").1.to_string();
        let given = strings.last().expect("a row has strings");
        assert_eq!(text, given.to_lowercase());
    }
}

#[test]
fn row_2_keeps_one_change() {
    assert_eq!(recorded(1, &["x", "X"]).time_indices(), [0]);
}

#[test]
fn row_8_judges_by_the_last_index_kept() {
    let mut writer = SignalWriter::new(1).expect("the width stands");
    for (time_idx, string, added) in [
        (5, "0", Added::Kept),
        (10, "0", Added::Dropped),
        (7, "1", Added::Kept),
    ] {
        assert_eq!(writer.add_change(time_idx, string), Ok(added));
    }
    assert_eq!(writer.add_change(6, "0"), Err(Refusal::IndexBelowLast));
    let signal = writer.finish();
    assert_eq!(signal.time_indices(), [5, 7]);
    assert_eq!(signal.bytes(), [0, 1]);
}

fn events(time_indices: &[u32]) -> Signal {
    records::stored(time_indices.to_vec(), FixedWidthEncoding::Event, vec![])
}

#[test]
fn rows_9_to_11_are_looked_up_so() {
    let signal = events(&[0, 5, 5, 9]);
    let found = |time_idx| {
        let offset = signal.get_offset(time_idx).expect("no index falls")?;
        let next = offset.next_index.map(u32::from);
        Some((offset.start, offset.elements, offset.time_match, next))
    };
    assert_eq!(found(6), Some((1, 2, false, Some(9))));
    assert_eq!(found(9), Some((3, 1, true, None)));
    assert_eq!(events(&[3]).get_offset(2), Ok(None));
    assert_eq!(signal.value_at(6), Ok(Some((5, SignalValueRef::Event))));
    assert_eq!(signal.value_at(9), Ok(Some((9, SignalValueRef::Event))));
    assert_eq!(events(&[3]).value_at(2), Ok(None));
}

#[test]
fn row_12_keeps_equal_levels_of_another_set() {
    let mut writer = SignalWriter::new(2).expect("the width stands");
    for (time_idx, string) in [(0, "x1"), (4, "01")] {
        assert_eq!(writer.add_change(time_idx, string), Ok(Added::Kept));
    }
    let slice = DerivedBitVecSignal::new_slice(1, 0, 0).expect("the range stands");
    let derived = transform_signal(&slice, &[&writer.finish()]).expect("the record stands");
    assert_eq!(derived.bytes(), [0x41, 0x01]);
    assert_eq!(derived.time_indices(), [0, 4]);
}

#[test]
fn widths_end_at_4096() {
    assert!(SignalWriter::new(4_096).is_ok());
    let refusal = SignalWriter::new(4_097).err();
    assert_eq!(refusal, Some(Refusal::WidthTooLarge));
}

#[test]
fn both_zeros_are_kept() {
    let mut writer = SignalWriter::new_real();
    assert_eq!(writer.add_change(0, 0.0), Ok(Added::Kept));
    assert_eq!(writer.add_change(1, -0.0), Ok(Added::Kept));
    assert_eq!(writer.add_change(2, -0.0), Ok(Added::Dropped));
    assert_eq!(writer.finish().time_indices(), [0, 1]);
}

#[test]
fn equal_levels_are_equal_under_other_largest_sets() {
    let four = recorded(3, &["x01"]);
    let encoding = FixedWidthEncoding::BitVector {
        max_states: States::Nine,
        width: 3,
    };
    let nine = records::stored(vec![0], encoding, vec![0x40, 0x21]);
    assert_eq!(four.compare(&nine), Ok(true));
    assert_eq!(four, nine);
    assert_ne!(four, recorded(3, &["x00"]));
}
