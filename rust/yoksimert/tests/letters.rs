//! The letters stand in the order of IEEE 1164's own list, then the small ones: in the match that decides their codes, and in the
//! definition of the page. No contract can say it, since an order of arms isn't seen in an answer.

use std::fs;
use std::path::Path;

const ORDER: &str = "UX01ZWLH-uxzwlh";

fn file(path: &str) -> String {
    let path = Path::new(env!("CARGO_MANIFEST_DIR"))
        .join("../../crates/value")
        .join(path);
    fs::read_to_string(&path).unwrap_or_else(|error| panic!("{}: {error}", path.display()))
}

/// What stands in a text between two others.
fn between<'a>(text: &'a str, start: &str, end: &str) -> &'a str {
    let (_, rest) = text.split_once(start).expect(start);
    rest.split_once(end).expect(end).0
}

/// The arms of the match: each byte and its answer, and what stands for every other byte.
fn arms() -> Vec<(String, String)> {
    let source = file("src/lib.rt");
    let function = between(&source, "pub fn bit_char_to_num(", "\n}\n");
    let arms = between(function, "match value {\n", "\n    }");
    let arms = arms.lines().map(|arm| arm.trim().trim_end_matches(','));
    let arms = arms.map(|arm| arm.split_once(" => ").expect("an arm stands on one line"));
    arms.map(|(byte, answer)| (byte.to_string(), answer.to_string()))
        .collect()
}

/// The letters of the page and their codes.
fn lines() -> Vec<(String, String)> {
    let definitions = file("specs/Page.antt");
    let page = between(&definitions, "\npage =\n", "[]");
    let lines = page.split('∷').map(str::trim);
    let lines = lines.filter_map(|line| line.split_once(" is "));
    lines
        .map(|(letter, code)| (letter.trim_matches('"').to_string(), code.to_string()))
        .collect()
}

#[test]
fn the_page_is_in_order() {
    let letters: String = lines().into_iter().map(|(letter, _)| letter).collect();
    assert_eq!(letters, ORDER);
}

/// One arm for each line of the page, in its order, and a last one for foreign bytes.
#[test]
fn the_match_has_the_lines_of_the_page() {
    let arm = |(letter, code)| (format!("b'{letter}'"), format!("Some({code})"));
    let mut expected: Vec<_> = lines().into_iter().map(arm).collect();
    expected.push(("_".to_string(), "None".to_string()));
    assert_eq!(arms(), expected);
}
