//! The archive takes every call of its operations, and agrees with the oracle.

use compare::check::Checker;
use compare::generate::{Generator, Size};
use compare::operations::OPERATIONS;
use compare::{long, rows};

#[test]
fn generated_calls_agree() {
    let mut checker = Checker::default();
    rows::rows_and_edges(&mut checker);
    let mut generator = Generator::new(4, Size::Full);
    while checker.runs < 500 {
        generator.scenario(&mut checker);
    }
    assert_eq!(checker.disagreements, Vec::<String>::new());
    for name in OPERATIONS.iter().flat_map(|operation| operation.names) {
        let counts = checker.counts[name];
        assert_eq!(counts.archive, counts.accepted + counts.refused, "{name}");
    }
}

#[test]
fn every_entry_of_equal_indices_is_counted() {
    let mut checker = Checker::default();
    long::equal_indices(&mut checker);
    assert_eq!(checker.disagreements, Vec::<String>::new());
    assert_eq!(checker.compared_with_archive(), 5 * 3);
    assert_eq!(checker.compared(), if cfg!(wellen) { 5 * 3 } else { 0 });
}

#[test]
fn every_first_byte_agrees() {
    let mut checker = Checker::default();
    long::every_first_byte(&mut checker);
    assert_eq!(checker.disagreements, Vec::<String>::new());
    assert_eq!(checker.compared_with_archive(), 5 * 256 * (7 + 2 * 256));
}

#[test]
fn every_character_agrees() {
    let mut checker = Checker::default();
    long::every_character(&mut checker);
    assert_eq!(checker.disagreements, Vec::<String>::new());
    let strings = (1 + 8 * 3) * 3 * 256;
    assert_eq!(checker.compared_with_archive(), 2 * strings);
    assert_eq!(
        checker.compared(),
        if cfg!(wellen) { 2 * strings } else { 0 }
    );
    // Of 256 bytes 15 are not foreign.
    assert_eq!(checker.counts["add"].accepted, strings / 256 * 15 * 2);
}
