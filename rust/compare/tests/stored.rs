//! The stored answers, and what a replay refuses.

use compare::operations::{OPERATIONS, numbers};
use compare::stored::replay;

const FIRST: &str = include_str!("../../../crates/answers/stdin");

#[test]
fn stored_answers_are_the_oracles() {
    assert!(replay(FIRST).expect("every line as stored") >= 1_500);
}

#[test]
fn every_number_is_stored() {
    for number in [0].into_iter().chain(numbers()) {
        let outcome = format!(" = {number} ");
        assert!(FIRST.contains(&outcome), "{number}");
    }
}

#[test]
fn the_numbers_are_the_librarys() {
    let all: Vec<u8> = yoksimert::Refusal::ALL.iter().map(|r| r.number()).collect();
    assert_eq!(numbers(), all);
}

#[test]
fn the_operations_have_names_of_their_own() {
    let names = OPERATIONS.iter().flat_map(|operation| operation.names);
    let mut names: Vec<&str> = names.copied().collect();
    let all = names.len();
    names.sort_unstable();
    names.dedup();
    assert_eq!(names.len(), all);
}

#[test]
fn an_altered_answer_is_refused_with_its_line() {
    let error = replay("# one\nw fresh 3 = 0 b 3 0 1\n").expect_err("the count is 0");
    assert!(error.starts_with("line 2: "), "{error}");
}

#[test]
fn a_spoilt_line_is_refused() {
    for line in [
        "",
        "w",
        "x fresh 3 = 0 b 3 0 0",
        "w fresh 3",
        "w fresh = 0",
        "w fresh 3 4 = 0 b 3 0 0",
    ] {
        assert!(replay(line).is_err(), "{line:?}");
    }
}
