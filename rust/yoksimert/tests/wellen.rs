//! docs/FROM-WELLEN.md has every public item of wellen's ported files. wellen's source is looked for as rust/reference does: in the
//! folder `WELLEN_SRC`, or in `../shared/docs/src` beside the repository; without it there is nothing to hold the document to.

use std::collections::BTreeSet;
use std::path::{Path, PathBuf};
use std::{env, fs};

const DOCUMENT: &str = include_str!("../../../docs/FROM-WELLEN.md");
const FILES: [&str; 5] = [
    "src/signal/mod.rs",
    "src/signal/value.rs",
    "src/signal/transform.rs",
    "src/fst.rs",
    "src/wavemem.rs",
];
/// Words before the name of an item, apart from `pub` itself.
const DECLARING: [&str; 6] = ["fn", "struct", "enum", "trait", "type", "const"];

fn source() -> PathBuf {
    match env::var_os("WELLEN_SRC") {
        Some(folder) => folder.into(),
        None => Path::new(env!("CARGO_MANIFEST_DIR")).join("../../../shared/docs/src"),
    }
}

fn words(text: &str) -> impl Iterator<Item = &str> {
    let words = text.split(|c: char| !c.is_alphanumeric() && c != '_');
    words.filter(|word| !word.is_empty())
}

/// The names that a line makes public: an item's, a field's, or those that are handed on from a module.
fn public(line: &str) -> Vec<&str> {
    let Some(rest) = line.trim_start().strip_prefix("pub ") else {
        return Vec::new();
    };
    match rest.strip_prefix("use ") {
        Some(used) => words(used).skip(1).collect(),
        None => {
            let mut names = words(rest).skip_while(|word| DECLARING.contains(word));
            names.next().into_iter().collect()
        }
    }
}

/// The words of the document's code spans.
fn named() -> BTreeSet<&'static str> {
    let rows = DOCUMENT.lines().filter(|line| line.starts_with('|'));
    let spans = rows.flat_map(|row| row.split('`').skip(1).step_by(2));
    spans.flat_map(words).collect()
}

#[test]
fn every_public_item_of_wellen_has_a_row() {
    let (folder, named) = (source(), named());
    if !folder.join(FILES[0]).is_file() {
        println!("left out: no wellen in {}", folder.display());
        return;
    }
    let (mut found, mut missing) = (0, Vec::new());
    for file in FILES {
        let text = fs::read_to_string(folder.join(file)).expect("wellen's source is whole");
        for name in text.lines().flat_map(public) {
            found += 1;
            if !named.contains(name) {
                missing.push(format!("{file}: {name}"));
            }
        }
    }
    assert!(missing.is_empty(), "{}", missing.join("\n"));
    assert!(100 < found, "{found} public items are not all");
}

#[test]
fn public_names_are_seen() {
    for (line, names) in [
        (
            "    pub fn get_bit(&self, bit: u32) -> Bit {",
            &["get_bit"][..],
        ),
        ("    pub const fn new(value: u8) -> Self {", &["new"]),
        ("    pub const ZERO: Self = Self(0);", &["ZERO"]),
        (
            "pub struct SignalChangeData(ChangeData);",
            &["SignalChangeData"],
        ),
        ("    pub elements: u16,", &["elements"]),
        ("pub use value::{Bit, BitVecRef};", &["Bit", "BitVecRef"]),
        ("pub use map::SignalMap;", &["SignalMap"]),
        ("    pub(crate) fn signal_encoding(&self) {", &[]),
        ("fn expand_entries(from: States) {", &[]),
    ] {
        assert_eq!(public(line), names, "{line}");
    }
}
