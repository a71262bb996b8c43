//! Vectors taken as records: their lengths, what `checked` finds, and which records are the same.

use crate::judged;
use crate::random::Random;
use crate::records;
use oracle::{Encoding, Record};
use std::collections::BTreeSet;
use std::mem::discriminant;
use yoksimert::raw::{self, FlatDescription};
use yoksimert::{FixedWidthEncoding, MAXIMUM, Refusal, Signal, SignalWriter, States, Unsound};

const ROUNDS: u32 = 40_000;
const SETS: [States; 3] = [States::Two, States::Four, States::Nine];

fn levels(max_states: States, width: u32) -> FixedWidthEncoding {
    FixedWidthEncoding::BitVector { max_states, width }
}

/// Whether the archive takes so many bytes for so many entries.
fn is_taken(encoding: FixedWidthEncoding, count: u32, bytes: usize) -> bool {
    let (kind, width, set) = match encoding {
        FixedWidthEncoding::Event => (0, 0, 0),
        FixedWidthEncoding::Real => (1, 0, 0),
        FixedWidthEncoding::BitVector { max_states, width } => (2, width, max_states.mark()),
    };
    let description = FlatDescription::new(kind, width, set.into(), count);
    let number = raw::read(description, &vec![0; bytes], 0, u32::MAX).number;
    assert!([2, 8].contains(&number), "{number}");
    number == 8
}

#[test]
fn every_entry_has_the_archives_size() {
    let widths = (1..=4_096).flat_map(|width| SETS.map(|set| levels(set, width)));
    for encoding in widths.chain([FixedWidthEncoding::Real]) {
        let size = encoding.bytes_per_entry().expect("the width stands");
        for count in [1, 3] {
            let bytes = size * count as usize;
            assert!(is_taken(encoding, count, bytes), "{encoding:?}");
            assert!(!is_taken(encoding, count, bytes - 1), "{encoding:?}");
        }
    }
    let event = FixedWidthEncoding::Event;
    assert_eq!(event.bytes_per_entry(), Some(0));
    assert!(is_taken(event, 7, 0));
    for width in [0, 4_097, u32::MAX] {
        for encoding in SETS.map(|set| levels(set, width)) {
            assert_eq!(encoding.bytes_per_entry(), None);
            assert!(!is_taken(encoding, 0, 0) && !is_taken(encoding, 1, 10_000));
        }
    }
}

/// Vectors of which something is wrong now and then.
struct Vectors {
    time_indices: Vec<u32>,
    encoding: FixedWidthEncoding,
    bytes: Vec<u8>,
}

impl Vectors {
    fn new(random: &mut Random) -> Self {
        let (mut time_indices, mut encoding, mut bytes) = records::signal(random).into_parts();
        if random.one_in(3) {
            // No marks and small codes: most of these are sound.
            bytes.iter_mut().for_each(|byte| *byte &= 0x11);
        }
        match random.below(20) {
            0 => encoding = levels(random.pick(&SETS), random.pick(&[0, 4_097, u32::MAX])),
            1 => bytes.push(0),
            2 => drop(bytes.pop()),
            3 => time_indices.push(9),
            4 => drop(time_indices.pop()),
            _ => {}
        }
        Self {
            time_indices,
            encoding,
            bytes,
        }
    }

    fn record<'a>(&'a self, bytes: &'a [u8]) -> Record<'a> {
        let encoding = match self.encoding {
            FixedWidthEncoding::Event => Encoding::Event,
            FixedWidthEncoding::Real => Encoding::Real,
            FixedWidthEncoding::BitVector { max_states, width } => Encoding::BitVector {
                width,
                max_states: judged::states(max_states),
            },
        };
        Record {
            description: oracle::Description::of(encoding, &self.time_indices),
            bytes,
            byte_start: 0,
            indices: &self.time_indices,
            index_start: 0,
        }
    }

    /// By the oracle, which refuses bytes that are too few: these aren't, and all but the last of them are.
    fn has_its_lengths(&self) -> bool {
        let stands = |bytes| {
            let record = self.record(bytes);
            oracle::compare(&record, &record) != Err(oracle::Refusal(2))
        };
        match self.bytes.split_last() {
            None => stands(&[]),
            Some((_, fewer)) => stands(&self.bytes) && !stands(fewer),
        }
    }

    /// The number of what is wrong behind the lengths, and the entry.
    fn fault(&self) -> Option<(u8, usize)> {
        let pairs = self.time_indices.windows(2).enumerate();
        let mut falls = pairs.filter(|(_, pair)| pair[1] < pair[0]);
        if let Some((before, _)) = falls.next() {
            return Some((11, before + 1));
        }
        let d = self.record(&self.bytes).description;
        let bad = |entry: usize| {
            let text = oracle::text(d, &self.bytes, 0, entry as u32, &mut [0; 4_096]);
            text.err().filter(|refusal| refusal.0 != 3)
        };
        let mut entries = (0..self.time_indices.len()).filter_map(|at| Some((bad(at)?.0, at)));
        entries.next()
    }

    fn checked(&self) -> Result<Signal, Unsound> {
        Signal::checked(self.time_indices.clone(), self.encoding, self.bytes.clone())
    }
}

/// Every call on a sound record is answered.
fn assert_sound(signal: &Signal) {
    for change in signal.iter_changes() {
        let (_, value) = change.expect("a sound record is read");
        let text = value.as_bit_vec().map(|levels| levels.bit_string());
        assert!(text.is_none_or(|text| text.is_ok()));
    }
    assert!(signal.get_offset(3).is_ok() && signal.changes_in(..).is_ok());
    assert!(signal.compare(signal).is_ok());
    let resumed = SignalWriter::resume(signal.clone()).map_err(|refused| refused.fault);
    assert!(matches!(resumed, Ok(_) | Err(Unsound::SpareBits(_))));
}

#[test]
fn vectors_are_taken_as_by_the_oracle() {
    let mut random = Random::new(21);
    let (mut faults, mut sound) = (BTreeSet::new(), 0);
    for _ in 0..ROUNDS {
        let vectors = Vectors::new(&mut random);
        let (indices, bytes) = (vectors.time_indices.clone(), vectors.bytes.clone());
        let taken = Signal::new_fixed_len(indices, vectors.encoding, bytes);
        assert_eq!(taken.is_ok(), vectors.has_its_lengths());
        match (taken, vectors.checked()) {
            (Err(refusal), Err(fault)) => {
                assert_eq!(refusal, Refusal::BadRecord);
                assert_eq!((fault.refusal(), fault.entry()), (refusal, None));
                faults.insert(format!("{:?}", discriminant(&fault)));
            }
            (Ok(_), Err(fault)) => {
                let told = fault.entry().map(|entry| (fault.refusal().number(), entry));
                assert_eq!(told, vectors.fault(), "{fault}");
                faults.insert(format!("{:?}", discriminant(&fault)));
            }
            (Ok(taken), Ok(signal)) => {
                assert_eq!(vectors.fault(), None);
                assert!(taken.same_record(&signal));
                assert_sound(&signal);
                sound += 1;
            }
            (Err(refusal), Ok(_)) => panic!("{refusal}, but checked takes it"),
        }
    }
    assert_eq!(faults.len(), 5, "widths, lengths, indices, marks and codes");
    assert!(sound > ROUNDS / 10, "{sound}");
}

/// These vectors are refused with this fault, which begins to tell so.
fn assert_told(
    indices: &[u32],
    encoding: FixedWidthEncoding,
    bytes: &[u8],
    fault: Unsound,
    told: &str,
) {
    let refused = Signal::checked(indices.to_vec(), encoding, bytes.to_vec());
    assert_eq!(refused.err(), Some(fault));
    assert!(fault.to_string().starts_with(told), "{fault}");
    assert_eq!(Refusal::from(fault), fault.refusal());
}

#[test]
fn faults_are_told() {
    let (nine, event) = (levels(States::Nine, 1), FixedWidthEncoding::Event);
    let wide = Unsound::Width(4_097);
    assert_told(
        &[0],
        levels(States::Two, 4_097),
        &[],
        wide,
        "a width of 4097 is ",
    );
    let (many, most) = (vec![0; MAXIMUM + 1], Unsound::TooMany(MAXIMUM + 1));
    assert_told(&many, event, &[], most, "1048577 time indices are more ");
    let short = Unsound::Length {
        entries: 2,
        expected: 2,
        found: 1,
    };
    assert_told(&[0, 1], nine, &[0], short, "2 entries take 2 bytes, and 1 ");
    let (falls, indices) = (Unsound::IndexFalls(3), [0, 1, 1, 0, 2, 1]);
    assert_told(&indices, nine, &[0x99; 6], falls, "entry 3: the time ");
    let (mark, code) = (Unsound::BadMark(1), Unsound::BadCode(2));
    assert_told(
        &[0, 1, 2],
        nine,
        &[0, 0xc0, 0x89],
        mark,
        "entry 1: the mark ",
    );
    assert_told(&[0, 1, 2], nine, &[0, 0x88, 0x89], code, "entry 2: a code ");
    assert!(Signal::checked(vec![7; 3], event, vec![]).is_ok());
}

/// A record of these bytes, at 0, 1, 2 and on.
fn of_bytes(encoding: FixedWidthEncoding, bytes: &[u8]) -> Signal {
    let size = encoding.bytes_per_entry().expect("the width stands");
    let indices = (0..bytes.len() as u32 / size as u32).collect();
    records::stored(indices, encoding, bytes.to_vec())
}

/// Whether two records are equal, and whether they are the same.
fn alike(a: (FixedWidthEncoding, &[u8]), b: (FixedWidthEncoding, &[u8])) -> (bool, bool) {
    let (a, b) = (of_bytes(a.0, a.1), of_bytes(b.0, b.1));
    let answers = (a == b, a.same_record(&b));
    assert_eq!((b == a, b.same_record(&a)), answers);
    answers
}

#[test]
fn equal_levels_need_not_be_the_same_record() {
    let two = |width| levels(States::Two, width);
    let four = |width| levels(States::Four, width);
    let nine = |width| levels(States::Nine, width);
    let (both, equal, neither) = ((true, true), (true, false), (false, false));
    assert_eq!(alike((two(9), &[1, 5]), (two(9), &[1, 5])), both);
    assert_eq!(alike((two(1), &[1]), (two(1), &[3])), equal, "a spare bit");
    let spare = alike((nine(4), &[0, 0, 5]), (nine(4), &[0, 9, 5]));
    assert_eq!(spare, equal, "a spare byte");
    let larger = alike((four(3), &[0x61]), (nine(3), &[0x40, 0x21]));
    assert_eq!(larger, equal, "another largest set");
    assert_eq!(alike((two(1), &[1]), (four(1), &[1])), equal, "equal bytes");
    let own = alike((four(1), &[0x01]), (four(1), &[0x41]));
    assert_eq!(own, equal, "another own set");
    assert_eq!(alike((two(1), &[1]), (two(2), &[1])), neither, "widths");
}

#[test]
fn the_same_record_need_not_be_equal() {
    let (nine, real) = (levels(States::Nine, 1), FixedWidthEncoding::Real);
    let (nan, zero, minus) = (f64::NAN.to_le_bytes(), [0; 8], (-0f64).to_le_bytes());
    assert_eq!(alike((real, &nan), (real, &nan)), (false, true));
    assert_eq!(alike((real, &zero), (real, &minus)), (true, false));
    assert_eq!(alike((nine, &[0x89]), (nine, &[0x89])), (false, true));
    assert_eq!(alike((nine, &[0xc0]), (nine, &[0xc0])), (false, true));
    assert_eq!(alike((nine, &[]), (real, &[])), (true, false), "empty ones");
    let at = |index| records::stored(vec![index], FixedWidthEncoding::Event, vec![]);
    assert!(at(3).same_record(&at(3)) && !at(3).same_record(&at(4)));
}

#[test]
fn a_record_is_the_same_by_its_parts() {
    let mut random = Random::new(22);
    let signals: Vec<Signal> = (0..300).map(|_| records::signal(&mut random)).collect();
    for a in &signals {
        for b in &signals {
            let same = a.clone().into_parts() == b.clone().into_parts();
            assert_eq!(a.same_record(b), same);
        }
        let (indices, encoding, bytes) = a.clone().into_parts();
        assert_eq!(indices, a.time_indices());
        assert_eq!((encoding, &bytes[..]), (a.encoding(), a.bytes()));
        assert!(records::stored(indices, encoding, bytes).same_record(a));
    }
}
