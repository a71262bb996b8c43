//! Single levels beside the characters of the text.

use crate::random::Random;
use crate::records;
use yoksimert::{Bit, BitVecRef, FixedWidthEncoding, Refusal, Signal, SignalWriter, States};

const LETTERS: &str = "01xzhuwl-";

fn levels(signal: &Signal, entry: usize) -> BitVecRef<'_> {
    let value = signal.get_entry(entry).expect("there is an entry");
    value.as_bit_vec().expect("a bit vector")
}

/// Entries of every own set under every largest one.
fn recorded(random: &mut Random, width: u32, letters: &[&str]) -> Signal {
    let mut writer = SignalWriter::new(width).expect("the width stands");
    for (letters, time_idx) in letters.iter().zip(0..) {
        let string: Vec<u8> = (0..width)
            .map(|_| random.pick(letters.as_bytes()))
            .collect();
        assert!(writer.add_change(time_idx, &string).is_ok());
    }
    writer.finish()
}

fn assert_as_text(levels: BitVecRef<'_>) {
    let text = levels.bit_string().expect("the codes are levels");
    let bits = levels.iter_msb_to_lsb().expect("the codes are levels");
    assert_eq!(bits.len(), text.len());
    assert!(bits.clone().map(char::from).eq(text.chars()));
    assert!(bits.rev().map(char::from).eq(text.chars().rev()));
    let bits = levels.iter_lsb_to_msb().expect("the codes are levels");
    assert!(bits.clone().map(char::from).eq(text.chars().rev()));
    assert!(bits.rev().map(char::from).eq(text.chars()));
    for (bit, character) in (0..).zip(text.chars().rev()) {
        let level = levels.get_bit(bit).map(Bit::as_ascii);
        assert_eq!(level, Some(character), "bit {bit} of {text}");
    }
    for bit in [levels.width(), levels.width() + 1, 4_096, u32::MAX] {
        assert_eq!(levels.get_bit(bit), None);
    }
}

#[test]
fn every_level_is_its_character() {
    let mut random = Random::new(41);
    for width in (1..=140).chain([4_093, 4_094, 4_095, 4_096]) {
        for letters in [
            &["01", "01"][..],
            &["01", "01xz", "xz"],
            &["01", "01xz", LETTERS, "huwl-"],
        ] {
            let signal = recorded(&mut random, width, letters);
            for entry in 0..signal.len() {
                assert_as_text(levels(&signal, entry));
            }
        }
    }
}

#[test]
fn bits_are_passed_over() {
    let signal = recorded(&mut Random::new(42), 9, &[LETTERS]);
    let levels = levels(&signal, 0);
    let list: Vec<Bit> = levels.iter_lsb_to_msb().expect("levels").collect();
    for n in 0..12 {
        let mut bits = levels.iter_lsb_to_msb().expect("levels");
        assert_eq!(bits.nth(n), list.get(n).copied());
        assert_eq!(bits.len(), 9usize.saturating_sub(n + 1));
        let mut bits = levels.iter_lsb_to_msb().expect("levels");
        assert_eq!(bits.nth_back(n), list.iter().nth_back(n).copied());
        let left: Vec<Bit> = bits.clone().collect();
        assert_eq!(left, list[..9usize.saturating_sub(n + 1)]);
        assert_eq!(format!("{bits:?}"), format!("{left:?}"));
        assert_eq!(
            (bits.nth(9), bits.next(), bits.next_back()),
            (None, None, None)
        );
    }
}

/// The archive packs each letter to the code that its bit has.
#[test]
fn bits_are_the_archives_codes() {
    let all = [
        Bit::ZERO,
        Bit::ONE,
        Bit::X,
        Bit::Z,
        Bit::H,
        Bit::U,
        Bit::W,
        Bit::L,
        Bit::DONT_CARE,
    ];
    for ((bit, letter), code) in all.into_iter().zip(LETTERS.chars()).zip(0..) {
        let signal = recorded(&mut Random::new(43), 1, &[&letter.to_string()]);
        assert_eq!(levels(&signal, 0).get_bit(0), Some(bit));
        assert_eq!(Bit::new(code), Some(bit));
        assert_eq!((u8::from(bit), u64::from(bit)), (code, code.into()));
        assert_eq!((bit.as_ascii(), char::from(bit)), (letter, letter));
        assert_eq!(format!("{bit} {bit:?}"), format!("{letter} Bit({letter})"));
    }
    for code in 9..=u8::MAX {
        assert_eq!(Bit::new(code), None);
    }
}

#[test]
fn a_code_that_is_no_levels_is_no_bit() {
    let encoding = FixedWidthEncoding::BitVector {
        max_states: States::Nine,
        width: 3,
    };
    for code in 9..16 {
        let signal = records::stored(vec![0], encoding, vec![0x81, code << 4 | 8]);
        let levels = levels(&signal, 0);
        assert_eq!(levels.get_bit(1), None);
        assert_eq!(levels.get_bit(0), Some(Bit::DONT_CARE));
        assert_eq!(levels.get_bit(2), Some(Bit::ONE));
        assert_eq!(levels.iter_lsb_to_msb().err(), Some(Refusal::BadCode));
        assert_eq!(levels.iter_msb_to_lsb().err(), Some(Refusal::BadCode));
    }
}

#[test]
fn sets_have_marks() {
    for states in [States::Two, States::Four, States::Nine] {
        assert_eq!(States::try_from(states.mark()), Ok(states));
    }
    for mark in 3..=u8::MAX {
        assert_eq!(States::try_from(mark), Err(Refusal::BadMark));
    }
}
