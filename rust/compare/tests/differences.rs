//! Every known difference between wellen and documents 01 and 02, at a smallest input: what the document says, what wellen
//! does, and that the call is outside the domain of the comparison, or in it and compared by a part of the answer.
#![cfg(wellen)]

use compare::by_wellen::{Verdict, verdict};
use compare::operation::{Operation, Outcome, outcome};
use compare::operations::add_change::AddChange;
use compare::operations::add_piece::AddPiece;
use compare::operations::compare::Compare;
use compare::operations::derive::Derive;
use compare::operations::fresh::Fresh;
use compare::operations::look_up::LookUp;
use compare::operations::number::{Number, Unsigned};
use compare::operations::read::Read;
use compare::operations::text::Text;
use compare::record::{LentRecord, cut};
use oracle::{
    Change, Derivation, Description, Encoding, Input, MAXIMUM, Offset, Refusal, Side, States,
};

/// What wellen answers to a call outside the domain that document 01 answers with `expected`.
fn differing<O: Operation>(call: &O, expected: Result<O::Answer, u8>) -> Option<O::Answer> {
    assert!(!call.is_in_domain(), "in the domain: {call:?}");
    let outcome = outcome(call);
    assert_eq!(outcome.answer, expected.map_err(Refusal));
    let verdict = verdict(call);
    assert!(!verdict.agrees(call, &outcome), "no difference: {call:?}");
    accepted(verdict).and_then(|outcome| outcome.answer.ok())
}

fn accepted<Answer>(verdict: Verdict<Answer>) -> Option<Outcome<Answer>> {
    match verdict {
        Verdict::Accepted(outcome) => Some(outcome),
        Verdict::Refused | Verdict::Beyond(_) => None,
    }
}

fn vector(width: u32, max_states: States, bytes: &[u8], indices: &[u32]) -> LentRecord {
    let encoding = Encoding::BitVector { width, max_states };
    LentRecord::new(Description::of(encoding, indices), bytes, indices)
}

#[test]
fn bits_above_the_64th_are_dropped() {
    let record = vector(65, States::Two, &[1, 0, 0, 0, 0, 0, 0, 0, 0], &[0]);
    let call = Number {
        record: record.without_indices(),
        entry: 0,
        form: Unsigned,
    };
    assert_eq!(differing(&call, Err(16)), Some(0));
}

#[test]
fn fresh_has_no_greatest_width() {
    let encoding = Encoding::BitVector {
        width: 4_097,
        max_states: States::Two,
    };
    let made = differing(&Fresh { width: 4_097 }, Err(1));
    assert_eq!(made, Some(Description::empty(encoding)));
}

#[test]
fn add_has_no_greatest_width() {
    let mut record = vector(4_097, States::Two, &[0; 513], &[]);
    record.indices = vec![0];
    let change = Change::Text(vec![b'0'; 4_097]);
    let call = AddChange {
        record,
        index: 0,
        change,
    };
    let next = differing(&call, Err(2)).expect("wellen adds it");
    assert_eq!(next.count, 1);
}

#[test]
fn a_mark_above_the_largest_set_is_read_at_widths_1_and_2() {
    for (width, string) in [(1, "0"), (2, "-0")] {
        let record = vector(width, States::Four, &[0x80], &[0]).without_indices();
        let call = Read {
            record: record.clone(),
            entry: 0,
        };
        let entry = differing(&call, Err(9)).expect("wellen reads it");
        assert_eq!((entry.states, entry.part), (States::Nine, 0..1));
        let call = Text {
            record,
            entry: 0,
            out: vec![b' '; 2],
        };
        differing(&call, Err(9));
        let text = accepted(verdict(&call)).expect("wellen reads it").bytes;
        assert!(text.starts_with(string.as_bytes()), "{text:?}");
    }
}

#[test]
fn an_event_beyond_the_count_is_read() {
    let record = LentRecord::new(Description::empty(Encoding::Event), &[], &[]);
    let read = differing(&Read { record, entry: 0 }, Err(8)).expect("wellen reads it");
    assert_eq!(read.kind, oracle::Kind::Event);
}

fn compare(first: LentRecord, second: LentRecord, expected: Result<bool, u8>) -> Option<bool> {
    differing(&Compare { first, second }, expected)
}

#[test]
fn equal_levels_under_other_largest_sets_differ() {
    let four = vector(2, States::Four, &[0x42], &[0]);
    let nine = vector(2, States::Nine, &[0x40, 0x02], &[0]);
    assert_eq!(compare(four, nine, Ok(true)), Some(false));
}

#[test]
fn document_01s_example_of_other_largest_sets_differs() {
    let four = vector(3, States::Four, &[0x61], &[0]);
    let nine = vector(3, States::Nine, &[0x40, 0x21], &[0]);
    assert_eq!(compare(four, nine, Ok(true)), Some(false));
}

#[test]
fn equal_bytes_of_other_widths_are_equal() {
    let one = vector(1, States::Two, &[0x01], &[0]);
    let two = vector(2, States::Two, &[0x01], &[0]);
    assert_eq!(compare(one, two, Ok(false)), Some(true));
}

#[test]
fn widths_of_other_lengths_are_refused() {
    let eight = vector(8, States::Two, &[0x01], &[0]);
    let nine = vector(9, States::Two, &[0x00, 0x01], &[0]);
    assert_eq!(compare(eight, nine, Ok(false)), None);
}

#[test]
fn unused_bits_count() {
    let clean = vector(1, States::Two, &[0x01], &[0]);
    let stray = vector(1, States::Two, &[0x03], &[0]);
    assert_eq!(compare(clean, stray, Ok(true)), Some(false));
}

#[test]
fn a_bad_code_equals_itself() {
    let bad = vector(1, States::Nine, &[0x89], &[0]);
    assert_eq!(compare(bad.clone(), bad, Err(10)), Some(true));
}

#[test]
fn a_bad_mark_at_width_1_equals_itself() {
    let bad = vector(1, States::Four, &[0x80], &[0]);
    assert_eq!(compare(bad.clone(), bad, Err(9)), Some(true));
}

#[test]
fn a_falling_index_is_looked_up() {
    let call = LookUp {
        indices: vec![1, 0],
        sought: 0,
    };
    assert_eq!(differing(&call, Err(11)), Some(None));
}

#[test]
fn a_list_above_the_maximum_is_looked_up() {
    let call = LookUp {
        indices: vec![0; MAXIMUM as usize + 1],
        sought: 0,
    };
    let offset = Offset {
        start: 0,
        elements: 1,
        time_match: true,
        next_index: None,
    };
    assert_eq!(differing(&call, Err(2)), Some(Some(offset)));
}

/// In the domain: it is compared by what 16 bits show of it.
#[test]
fn a_run_is_counted_modulo_65536() {
    for (entries, shown) in [(65_535, 65_535), (65_536, 0), (70_000, 4_464)] {
        let call = LookUp {
            indices: vec![5; entries as usize],
            sought: 5,
        };
        let count = |elements| Offset {
            start: 0,
            elements,
            time_match: true,
            next_index: None,
        };
        assert!(call.is_in_domain());
        let (verdict, mut ours) = (verdict(&call), outcome(&call));
        assert_eq!(ours.answer, Ok(Some(count(entries))));
        assert!(verdict.agrees(&call, &ours));
        for wrong in [
            Offset {
                start: 1,
                ..count(entries)
            },
            count(entries - 1),
            Offset {
                time_match: false,
                ..count(entries)
            },
            Offset {
                next_index: Some(6),
                ..count(entries)
            },
        ] {
            ours.answer = Ok(Some(wrong));
            assert!(!verdict.agrees(&call, &ours), "{wrong:?}");
        }
        let wellens = accepted(verdict).expect("wellen answers").answer;
        assert_eq!(wellens, Ok(Some(count(shown))));
    }
}

fn derivation(input_count: u32, pieces: &[(u64, u64, u64)]) -> Derivation {
    let mut out = oracle::empty_derivation();
    out.width = pieces.iter().map(|(_, width, _)| *width as u32).sum();
    out.input_count = input_count;
    out.inputs = std::array::from_fn(|at| at as u32 + 1);
    out.piece_count = pieces.len() as u32;
    for (place, (input, width, lsb)) in out.pieces.iter_mut().zip(pieces) {
        *place = input << 48 | width << 32 | lsb;
    }
    out
}

fn piece(derivation: Derivation, name: u32, msb: u32, lsb: u32) -> AddPiece {
    AddPiece {
        derivation,
        side: Side::Right,
        name,
        msb,
        lsb,
    }
}

#[test]
fn a_piece_may_reach_above_bit_4095() {
    let call = piece(derivation(0, &[]), 1, 4_096, 4_096);
    assert!(differing(&call, Err(12)).is_some());
}

#[test]
fn a_width_may_differ_from_the_pieces_sum() {
    let mut spoilt = derivation(1, &[(0, 1, 0)]);
    spoilt.width = 2;
    assert!(differing(&piece(spoilt, 1, 3, 3), Err(14)).is_some());
}

/// These three are in the domain: the comparison holds document 01's limits against what wellen leaves.
#[test]
fn a_derivation_has_no_limits() {
    let eight = derivation(8, &[(0, 1, 0)]);
    let full = derivation(1, &[(0, 1, 0); 64]);
    let wide = derivation(1, &[(0, 4_096, 0)]);
    for call in [
        piece(eight, 9, 0, 0),
        piece(full, 1, 1, 1),
        piece(wide, 1, 7, 7),
    ] {
        assert_eq!(outcome(&call).answer, Err(Refusal(13)));
        assert_eq!(verdict(&call), Verdict::Beyond(Refusal(13)));
    }
}

/// The records one behind the other, and room for eight steps.
fn derive(derivation: Derivation, records: &[LentRecord]) -> Derive {
    let (mut bytes, mut indices, mut inputs) = (Vec::new(), Vec::new(), Vec::new());
    for record in records {
        inputs.push(Input {
            description: record.description,
            byte_start: bytes.len(),
            index_start: indices.len(),
        });
        bytes.extend(&record.bytes);
        indices.extend(&record.indices);
    }
    Derive {
        derivation,
        inputs,
        bytes,
        indices,
        out_bytes: vec![0xa5; 16],
        out_indices: vec![77; 8],
    }
}

/// The used bytes and indices that wellen leaves where document 01 refuses.
fn derived(derivation: Derivation, records: &[LentRecord], number: u8) -> (Vec<u8>, Vec<u32>) {
    let call = derive(derivation, records);
    let description = differing(&call, Err(number)).expect("wellen derives it");
    let outcome = accepted(verdict(&call)).expect("wellen derives it");
    let used = cut(description, &outcome.bytes, &outcome.indices);
    (used.bytes, used.indices)
}

fn bit_0() -> Derivation {
    derivation(1, &[(0, 1, 0)])
}

#[test]
fn derive_reads_a_mark_above_the_largest_set() {
    let bad = vector(1, States::Four, &[0x84], &[0]);
    let nine = vector(1, States::Nine, &[0x00], &[0]);
    let both = derivation(2, &[(0, 1, 0), (1, 1, 0)]);
    assert_eq!(derived(both, &[bad, nine], 9), (vec![0x80, 0x40], vec![0]));
}

#[test]
fn derive_follows_falling_indices() {
    let falling = vector(1, States::Two, &[0, 1, 0], &[0, 5, 3]);
    assert_eq!(
        derived(bit_0(), &[falling], 11),
        (vec![0, 1, 0], vec![0, 5, 3])
    );
}

#[test]
fn derive_reads_beyond_a_width() {
    let narrow = vector(3, States::Two, &[0x20], &[0]);
    let bit_5 = derivation(1, &[(0, 1, 5)]);
    assert_eq!(derived(bit_5, &[narrow], 14), (vec![1], vec![0]));
}

#[test]
fn derive_takes_a_record_more_than_inputs() {
    let record = vector(1, States::Two, &[1], &[0]);
    assert_eq!(
        derived(bit_0(), &[record.clone(), record], 14),
        (vec![1], vec![0])
    );
}

#[test]
fn derive_takes_a_record_fewer_than_inputs() {
    let record = vector(1, States::Two, &[1], &[0]);
    assert_eq!(
        derived(derivation(2, &[(0, 1, 0)]), &[record], 14),
        (vec![1], vec![0])
    );
}

#[test]
fn derive_starts_after_index_0() {
    let late = vector(1, States::Two, &[1], &[1]);
    assert_eq!(derived(bit_0(), &[late], 15), (vec![1], vec![1]));
}

#[test]
fn derive_takes_an_index_for_an_offset() {
    let late = vector(1, States::Two, &[0, 1], &[1, 2]);
    assert_eq!(derived(bit_0(), &[late], 15), (vec![1], vec![1]));
}

/// The second level stays x, under the step's set Two: it spills into the first one, and `02` says `10`.
#[test]
fn derive_never_starts_a_late_input() {
    let early = vector(1, States::Four, &[0x00], &[0]);
    let late = vector(1, States::Two, &[1], &[1]);
    let both = derivation(2, &[(0, 1, 0), (1, 1, 0)]);
    assert_eq!(derived(both, &[early, late], 15), (vec![0x02], vec![0]));
}

#[test]
fn derive_takes_an_empty_input() {
    let empty = vector(1, States::Two, &[], &[]);
    assert_eq!(derived(bit_0(), &[empty], 15), (vec![], vec![]));
}
