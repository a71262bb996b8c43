//! Writers that go on with a record, are read while they record, and have room made for them.

use crate::random::Random;
use crate::records;
use yoksimert::{
    Added, FixedWidthEncoding, FstSignalValue, MAXIMUM, NotResumed, Refusal, Signal, SignalWriter,
    States, Unsound,
};

/// A change that is refused or dropped now and then.
struct Change {
    time_idx: u32,
    string: Vec<u8>,
    real: f64,
}

impl Change {
    fn new(random: &mut Random, time_idx: u32, width: u32) -> Self {
        let letters = random.pick(&["01", "01", "01xz", "01XZ", "01xzhuwl-", "01q"]);
        let length = width + u32::from(random.one_in(30));
        Self {
            time_idx: time_idx.saturating_sub(random.pick(&[0, 0, 0, 3])),
            string: (0..length)
                .map(|_| random.pick(letters.as_bytes()))
                .collect(),
            real: random.pick(&[0.0, -0.0, 1.5, f64::NAN]),
        }
    }

    fn add(&self, writer: &mut SignalWriter) -> Result<Added, Refusal> {
        let value = match writer.encoding() {
            FixedWidthEncoding::Real => FstSignalValue::Real(self.real),
            _ => FstSignalValue::String(&self.string),
        };
        writer.add_change(self.time_idx, value)
    }
}

fn fresh(random: &mut Random) -> (SignalWriter, u32) {
    let width = random.pick(&[0, 1, 2, 3, 4, 5, 8, 9, 33]);
    let writer = match random.below(8) {
        0 => SignalWriter::new_real(),
        _ => SignalWriter::new(width).expect("the width stands"),
    };
    (writer, width)
}

/// The same writer, broken off and resumed in one of the ways that a service may.
fn resumed(random: &mut Random, writer: SignalWriter) -> SignalWriter {
    let signal = match random.below(4) {
        0 => writer.finish(),
        1 => writer.as_signal().clone(),
        2 => {
            let (indices, encoding, bytes) = writer.finish().into_parts();
            Signal::checked(indices, encoding, bytes).expect("a writer's record is sound")
        }
        _ => {
            let (indices, encoding, bytes) = writer.finish().into_parts();
            records::stored(indices, encoding, bytes)
        }
    };
    SignalWriter::resume(signal).expect("a writer's record is sound")
}

#[test]
fn a_resumed_writer_is_one_that_went_on() {
    let mut random = Random::new(51);
    let (mut dropped, mut refused) = (0, 0);
    for _ in 0..4_000 {
        let (mut uncut, width) = fresh(&mut random);
        let (mut cut, mut time_idx) = (uncut.clone(), 0);
        for _ in 0..random.below(40) {
            if random.one_in(6) {
                cut = resumed(&mut random, cut);
            }
            if random.one_in(9) {
                assert_eq!(cut.reserve(random.below(100) as usize), Ok(()));
            }
            time_idx += random.below(3);
            let change = Change::new(&mut random, time_idx, width);
            let answer = change.add(&mut uncut);
            assert_eq!(change.add(&mut cut), answer);
            dropped += u32::from(answer == Ok(Added::Dropped));
            refused += u32::from(answer.is_err());
            assert!(cut.as_signal().same_record(uncut.as_signal()));
        }
        assert!(cut.finish().same_record(&uncut.finish()));
    }
    assert!(dropped > 1_000 && refused > 1_000, "{dropped} {refused}");
}

/// Whatever a finished record says, its writer said before.
#[test]
fn a_writer_is_read_while_it_records() {
    let mut random = Random::new(52);
    for _ in 0..1_000 {
        let (mut writer, width) = fresh(&mut random);
        for time_idx in 0..random.below(20) {
            let _ = Change::new(&mut random, time_idx, width).add(&mut writer);
            let signal = writer.clone().finish();
            assert_eq!(writer.time_indices(), signal.time_indices());
            assert_eq!(writer.bytes(), signal.bytes());
            assert_eq!(writer.len(), signal.len());
            let shown = |signal: &Signal| {
                let entries = (0..=signal.len()).map(|entry| signal.get_entry(entry));
                let entries: Vec<_> = entries.collect();
                let (held, within) = (signal.value_at(time_idx), signal.changes_in(2..));
                let within: Vec<_> = within.expect("no index falls").collect();
                let numbers = (signal.get_unsigned(0), signal.get_signed(0));
                format!("{signal:?} {entries:?} {held:?} {within:?} {numbers:?}")
            };
            assert_eq!(shown(writer.as_signal()), shown(&signal));
            assert_eq!(
                format!("{:?} {:?}", writer.last_change(), writer.get_entry(0)),
                format!("{:?} {:?}", signal.last_change(), signal.get_entry(0))
            );
            assert!(writer.as_ref().same_record(&signal));
        }
    }
}

#[test]
fn an_unsound_record_is_given_back() {
    let encoding = FixedWidthEncoding::BitVector {
        max_states: States::Nine,
        width: 1,
    };
    for (indices, bytes, fault) in [
        ([4, 5, 3], [0, 1, 2], Unsound::IndexFalls(2)),
        ([4, 5, 5], [0, 0xc0, 2], Unsound::BadMark(1)),
        ([4, 5, 5], [0x89, 0xc0, 2], Unsound::BadCode(0)),
    ] {
        let signal = records::stored(indices.to_vec(), encoding, bytes.to_vec());
        let refused = SignalWriter::resume(signal).expect_err("the record is unsound");
        assert_eq!(refused.to_string(), fault.to_string());
        let NotResumed {
            fault: told,
            signal,
        } = refused;
        assert_eq!(told, fault);
        let parts = (indices.to_vec(), encoding, bytes.to_vec());
        assert_eq!(signal.into_parts(), parts);
    }
    let signal = records::stored(vec![1, 0], FixedWidthEncoding::Event, vec![]);
    let refusal = SignalWriter::resume(signal).map_err(Refusal::from).err();
    assert_eq!(refusal, Some(Refusal::IndexFalls));
}

/// Under Two there are no marks, so a spare bit is none until the set is raised; then the entry could no longer be read.
#[test]
fn spare_bits_are_not_gone_on_with() {
    let encoding = FixedWidthEncoding::BitVector {
        max_states: States::Two,
        width: 3,
    };
    let spare = Signal::checked(vec![0], encoding, vec![0xc1]).expect("it has no mark");
    let refused = SignalWriter::resume(spare).expect_err("0xc0 is beside the levels");
    assert_eq!(refused.fault, Unsound::SpareBits(0));
    let text = refused.signal.get_entry(0).map(|value| value.to_string());
    assert_eq!(text.as_deref(), Ok("001"));
}

/// Each bit of an entry that is neither the mark's nor a level's is spare, and no other is.
#[test]
fn every_spare_bit_is_found() {
    for width in [1, 2, 3, 4, 5, 7, 8, 9, 16, 31, 32, 33] {
        for (letter, largest) in [
            ("1", "1"),
            ("1", "x"),
            ("x", "x"),
            ("0", "h"),
            ("z", "h"),
            ("h", "h"),
        ] {
            let mut writer = SignalWriter::new(width).expect("the width stands");
            for (time_idx, letter) in [letter, largest].into_iter().enumerate() {
                let added = writer.add_change(time_idx as u32, &letter.repeat(width as usize));
                added.expect("the change stands");
            }
            spare_bits_of(writer.finish());
        }
    }
}

/// An entry with one bit turned, but none of its mark, says the same exactly where the bit is spare.
fn spare_bits_of(signal: Signal) {
    let (time_indices, encoding, bytes) = signal.clone().into_parts();
    let size = encoding.bytes_per_entry().expect("a record's");
    let own_set = |signal: &Signal| signal.get_entry(0).map(|value| value.states());
    for bit in 0..size * 8 {
        let mut turned = bytes.clone();
        turned[bit / 8] ^= 0x80 >> (bit % 8);
        let turned = Signal::checked(time_indices.clone(), encoding, turned);
        if let Some(other) = turned
            .ok()
            .filter(|other| own_set(other) == own_set(&signal))
        {
            let expected = (other == signal).then_some(Unsound::SpareBits(0));
            let refused = SignalWriter::resume(other).err();
            let fault = refused.map(|refused| refused.fault);
            assert_eq!(fault, expected, "{encoding:?} {bytes:x?} {bit}");
        }
    }
}

#[test]
fn room_alters_no_record() {
    for width in [0, 1, 8, 9, 4_096] {
        let mut plain = SignalWriter::new(width).expect("the width stands");
        let mut roomy = SignalWriter::with_capacity(width, 10).expect("there is room");
        assert!(roomy.is_empty() && roomy.bytes().is_empty());
        for (time_idx, letter) in (0..).zip("01x0hhzl-1z0x1".bytes()) {
            let string = vec![letter; width as usize];
            let answer = plain.add_change(time_idx, &string);
            assert_eq!(roomy.add_change(time_idx, &string), answer);
        }
        assert_eq!(roomy.reserve(100), Ok(()));
        assert!(roomy.finish().same_record(&plain.finish()));
    }
}

#[test]
fn there_is_room_for_the_maximum_alone() {
    let too_many = [MAXIMUM + 1, usize::MAX];
    for changes in too_many {
        for width in [0, 1, 4_096] {
            let refusal = SignalWriter::with_capacity(width, changes).err();
            assert_eq!(refusal, Some(Refusal::NoRoom));
        }
        let answer = SignalWriter::new_real().reserve(changes);
        assert_eq!(answer, Err(Refusal::NoRoom));
    }
    let wide = SignalWriter::with_capacity(4_097, 1).err();
    assert_eq!(wide, Some(Refusal::WidthTooLarge));
    let mut event = SignalWriter::with_capacity(0, MAXIMUM).expect("there is room");
    assert_eq!(event.add_change(3, ""), Ok(Added::Kept));
    assert_eq!(event.reserve(MAXIMUM - 1), Ok(()));
    assert_eq!(event.reserve(MAXIMUM), Err(Refusal::NoRoom));
    assert_eq!(event.time_indices(), [3]);
}
