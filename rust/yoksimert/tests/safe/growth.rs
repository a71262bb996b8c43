//! The vectors grow to the maximum and no further.

use crate::records;
use yoksimert::{
    Added, FixedWidthEncoding, MAXIMUM, Refusal, Signal, SignalValueRef, SignalWriter, States,
};

#[test]
fn a_record_grows_to_the_maximum() {
    let mut writer = SignalWriter::new(2).expect("the width stands");
    for time_idx in 0..MAXIMUM as u32 - 1 {
        let string = ["01", "10"][time_idx as usize % 2];
        assert_eq!(writer.add_change(time_idx, string), Ok(Added::Kept));
    }
    // The raise lays out every entry anew, in twice the bytes.
    assert_eq!(writer.add_change(u32::MAX, "u-"), Ok(Added::Kept));
    assert_eq!(writer.len(), MAXIMUM);
    assert_eq!(writer.add_change(u32::MAX, "00"), Err(Refusal::NoRoom));
    assert_eq!(writer.add_change(u32::MAX, "U-"), Ok(Added::Dropped));

    let signal = writer.finish();
    assert_eq!(signal.max_states(), Some(States::Nine));
    assert_eq!(signal.time_indices().len(), MAXIMUM);
    assert_eq!(signal.bytes().len(), 2 * MAXIMUM);
    assert_eq!(signal.bytes()[..4], [0, 1, 0, 2]);
    assert_eq!(signal.bytes()[2 * MAXIMUM - 2..], [0x80, 0x58]);
}

#[test]
fn events_grow_to_the_maximum() {
    let mut writer = SignalWriter::new_event();
    for _ in 0..MAXIMUM {
        assert_eq!(writer.add_change(3, ""), Ok(Added::Kept));
    }
    assert_eq!(writer.add_change(3, "1"), Err(Refusal::NoRoom));
    let signal = writer.finish();
    assert!(signal.bytes().is_empty());
    let offset = signal.get_offset(4).expect("no index falls");
    let offset = offset.expect("there are events");
    assert_eq!((offset.start, offset.elements), (0, MAXIMUM as u32));
    for element in [0, MAXIMUM as u32 - 1] {
        let value = signal.get_value_at(&offset, element);
        assert_eq!(value, Ok(SignalValueRef::Event));
    }
    let held = signal.value_at(4);
    assert_eq!(held, Ok(Some((3, SignalValueRef::Event))));
}

/// Every change at an index is counted, each can be read, and the last one holds.
#[test]
fn every_change_at_an_index_is_counted() {
    for elements in [65_535, 65_536, 70_000, 131_072, MAXIMUM as u32] {
        let mut writer = SignalWriter::new(1).expect("the width stands");
        for at in 0..elements {
            let level = if at + 1 < elements {
                ["0", "1"][at as usize % 2]
            } else {
                "z"
            };
            assert_eq!(writer.add_change(3, level), Ok(Added::Kept));
        }
        let signal = writer.finish();
        let offset = signal.get_offset(3).expect("no index falls");
        let offset = offset.expect("there are changes");
        assert_eq!((offset.start, offset.elements), (0, elements));
        for element in 0..elements {
            let value = signal.get_value_at(&offset, element);
            let value = value.expect("there is such a change");
            let level = (element + 1 < elements).then_some(u64::from(element) % 2);
            assert_eq!(u64::try_from(value).ok(), level);
        }
        let beyond = signal.get_value_at(&offset, elements);
        assert_eq!(beyond, Err(Refusal::NoSuchEntry));
        let held = signal.value_at(u32::MAX).expect("no index falls");
        let (since, level) = held.expect("there are changes");
        assert_eq!((since, level.to_string()), (3, "z".to_string()));
    }
}

#[test]
fn an_offset_of_a_longer_record_ends_with_the_record() {
    let events = |count| {
        let time_indices = vec![3; count];
        records::stored(time_indices, FixedWidthEncoding::Event, vec![])
    };
    let offset = events(70_000).get_offset(3).expect("no index falls");
    let offset = offset.expect("there are events");
    let fewer = events(1);
    assert_eq!(fewer.get_value_at(&offset, 0), Ok(SignalValueRef::Event));
    assert_eq!(fewer.get_value_at(&offset, 1), Err(Refusal::NoSuchEntry));
}

#[test]
fn reals_grow_to_the_maximum() {
    let mut writer = SignalWriter::new_real();
    for number in 0..MAXIMUM as u32 {
        let answer = writer.add_change(number, f64::from(number));
        assert_eq!(answer, Ok(Added::Kept));
    }
    assert_eq!(writer.add_change(u32::MAX, 0.5), Err(Refusal::NoRoom));
    assert_eq!(writer.finish().bytes().len(), 8 * MAXIMUM);
}

/// Each width and each raise, from an empty vector and from a full one.
#[test]
fn no_width_lacks_room() {
    for width in (1..=70).chain([1_000, 4_095, 4_096]) {
        for levels in ["01", "xz", "01xz", "-u", "01-u", "01xzul"] {
            let mut writer = SignalWriter::new(width).expect("the width stands");
            for time_idx in 0..200 {
                let at = time_idx as usize * levels.len() / 200;
                let level = levels.as_bytes()[at];
                let mut string = vec![level; width as usize];
                string[0] = levels.as_bytes()[at.saturating_sub(time_idx as usize % 2)];
                assert!(writer.add_change(time_idx, &string[..]).is_ok());
            }
            let signal = writer.finish();
            let last = levels[levels.len() - 1..].repeat(width as usize - 1);
            let change = signal.iter_changes().last().expect("changes were kept");
            let text = change.expect("the entry is read").1.to_string();
            assert_eq!(text[1..], last);
        }
    }
}

#[test]
fn an_empty_record_has_no_bytes() {
    let signal = SignalWriter::new(9).expect("the width stands").finish();
    assert!(signal.bytes().is_empty() && signal.time_indices().is_empty());
    assert_eq!(signal.iter_changes().count(), 0);
    assert_eq!(signal.get_offset(u32::MAX), Ok(None));
    assert_eq!(signal.value_at(u32::MAX), Ok(None));
    assert_eq!(signal.get_entry(0), Err(Refusal::NoSuchEntry));
}

#[test]
fn a_longer_list_is_no_record() {
    let signal = |length| {
        let time_indices = vec![1; length];
        Signal::new_fixed_len(time_indices, FixedWidthEncoding::Event, vec![])
    };
    let longest = signal(MAXIMUM).expect("it has the maximum");
    assert_eq!(longest.get_entry(7), Ok(SignalValueRef::Event));
    assert_eq!(longest.compare(&longest), Ok(true));
    assert_eq!(signal(MAXIMUM + 1).err(), Some(Refusal::BadRecord));
}
