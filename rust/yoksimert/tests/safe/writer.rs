//! What a writer says of itself, and the values that it takes.

use crate::records;
use yoksimert::{Added, FixedWidthEncoding, FstSignalValue, Refusal, SignalWriter, States};

fn bits(max_states: States, width: u32) -> FixedWidthEncoding {
    FixedWidthEncoding::BitVector { max_states, width }
}

#[test]
fn a_writer_tells_its_length_and_encoding() {
    let mut writer = SignalWriter::new(3).expect("the width stands");
    assert_eq!((writer.len(), writer.is_empty()), (0, true));
    assert_eq!(writer.encoding(), bits(States::Two, 3));
    for (string, length, states) in [
        ("010", 1, States::Two),
        ("01x", 2, States::Four),
        ("01X", 2, States::Four),
        ("01h", 3, States::Nine),
        ("000", 4, States::Nine),
    ] {
        let added = if writer.len() == length {
            Added::Dropped
        } else {
            Added::Kept
        };
        assert_eq!(writer.add_change(7, string), Ok(added));
        assert_eq!((writer.len(), writer.is_empty()), (length, false));
        assert_eq!(writer.encoding(), bits(states, 3));
    }
    let told = format!("{writer:?}");
    assert_eq!(
        told,
        "SignalWriter(4 changes, BitVector { max_states: Nine, width: 3 })"
    );
    let signal = writer.finish();
    assert_eq!(signal.max_states(), Some(States::Nine));
    assert_eq!(signal.encoding(), bits(States::Nine, 3));
    let event = SignalWriter::new(0).map(|writer| writer.encoding());
    assert_eq!(event, Ok(FixedWidthEncoding::Event));
    let event = SignalWriter::new_event().encoding();
    assert_eq!(event, FixedWidthEncoding::Event);
    assert_eq!(
        SignalWriter::new_real().encoding(),
        FixedWidthEncoding::Real
    );
}

#[test]
fn events_and_reals_have_no_sets() {
    let mut event = SignalWriter::new_event();
    assert_eq!(event.add_change(1, "1"), Ok(Added::Kept));
    let mut real = SignalWriter::new_real();
    assert_eq!(real.add_change(1, 1.0), Ok(Added::Kept));
    for signal in [event.finish(), real.finish()] {
        assert_eq!(signal.max_states(), None);
        let told = format!("{signal:?}");
        assert!(told.starts_with("Signal(1 changes, "), "{told}");
    }
}

#[test]
fn the_first_time_index_is_told() {
    let signal = |time_indices: &[u32]| {
        records::stored(time_indices.to_vec(), FixedWidthEncoding::Event, vec![])
    };
    assert_eq!(signal(&[3, 5, 9]).get_first_time_idx(), Some(3));
    assert_eq!(signal(&[]).get_first_time_idx(), None);
}

/// Strings and reals in every form that a service may hold them in.
#[test]
fn values_are_taken_in_many_forms() {
    let mut writer = SignalWriter::new(2).expect("the width stands");
    let (string, vector) = ("01".to_string(), b"10".to_vec());
    assert_eq!(writer.add_change(0, "00"), Ok(Added::Kept));
    assert_eq!(writer.add_change(1, &string), Ok(Added::Kept));
    assert_eq!(writer.add_change(2, &vector), Ok(Added::Kept));
    assert_eq!(
        writer.add_change(3, &vector[..0]),
        Err(Refusal::WrongLength)
    );
    assert_eq!(writer.add_change(3, b"11"), Ok(Added::Kept));
    let value = &FstSignalValue::String(b"x1");
    assert_eq!(writer.add_change(4, value), Ok(Added::Kept));
    let value = &FstSignalValue::from("X1");
    assert_eq!(writer.add_change(5, value), Ok(Added::Dropped));
    let signal = writer.finish();
    let texts = signal.iter_changes().map(|change| {
        let (_, value) = change.expect("the entry is read");
        value.to_string()
    });
    let texts: Vec<String> = texts.collect();
    assert_eq!(texts, ["00", "01", "10", "11", "x1"]);
    assert_eq!(signal.time_indices(), [0, 1, 2, 3, 4]);
    let mut real = SignalWriter::new_real();
    let added = real.add_change(0, FstSignalValue::Real(2.5));
    assert_eq!(added, Ok(Added::Kept));
    assert_eq!(real.add_change(0, 3.5), Ok(Added::Kept));
    assert_eq!(real.len(), 2);
}
