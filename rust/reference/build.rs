//! Cuts the reference out of wellen's source and writes it to `OUT_DIR/wellen.rs`.
//!
//! The source is the folder `WELLEN_SRC` (it holds `src/fst.rs` and the others) or, if that isn't set,
//! `../shared/docs/src` beside the repository. Items are taken whole, as they stand; `EDITS` is the full
//! list of alterations. Without the source the crate is built without the reference (`cfg(wellen)` off).

use std::path::{Path, PathBuf};
use std::{env, fs};

/// One alteration of wellen's text, in every place of the file where `from` stands.
struct Edit {
    file: &'static str,
    from: &'static str,
    to: &'static str,
    #[allow(dead_code, reason = "read by people")]
    reason: &'static str,
}

const STAND_IN: &str = "the crate is not at hand: a stand-in of the same name";
const NESTED: &str = "the items stand in a module and not at a crate's root";
const LOADED: &str = "a writer is set up from a description and a used part";
const BYTES: &str = "the bytes of a derived record, and the place of a part within them";
const WRAPPED: &str = "private there, called by the wrappers";

const EDITS: &[Edit] = &[
    edit(VALUE, "use crate::", "use crate::wellen::", NESTED),
    edit(VALUE, "use num_enum::", "use crate::stand_ins::", STAND_IN),
    edit(VALUE, "use smallvec::", "use crate::stand_ins::", STAND_IN),
    edit(
        VALUE,
        "#[derive(TryFromPrimitive, ",
        "#[derive(",
        "no derive macro without the crate: the trait is implemented in stand_ins.rs",
    ),
    edit(
        VALUE,
        "    data: &'a [u8],\n}",
        "    pub(crate) data: &'a [u8],\n}",
        "the part that a read hands back",
    ),
    edit(TRANSFORM, "use crate::", "use crate::wellen::", NESTED),
    edit(
        TRANSFORM,
        "fn transform_bv_signal(",
        "pub(crate) fn transform_bv_signal(",
        WRAPPED,
    ),
    edit(
        TRANSFORM,
        "    width: u32,\n    inputs: Vec<SignalRef>,\n    bits: Vec<u64>,\n",
        "    pub(crate) width: u32,\n    pub(crate) inputs: Vec<SignalRef>,\n    pub(crate) bits: Vec<u64>,\n",
        "a derivation is set up from its numbers and read back",
    ),
    edit(
        SIGNAL,
        "pub struct SignalChangeData(ChangeData);",
        "pub struct SignalChangeData(pub(crate) ChangeData);",
        BYTES,
    ),
    edit(
        SIGNAL,
        "enum ChangeData {",
        "pub(crate) enum ChangeData {",
        BYTES,
    ),
    edit(
        FST,
        "struct SignalWriter {",
        "pub(crate) struct SignalWriter {",
        WRAPPED,
    ),
    edit(FST, "    fn new(id", "    pub(crate) fn new(id", WRAPPED),
    edit(
        FST,
        "    fn add_change(",
        "    pub(crate) fn add_change(",
        WRAPPED,
    ),
    edit(
        FST,
        "    fn finish(self)",
        "    pub(crate) fn finish(self)",
        WRAPPED,
    ),
    edit(
        FST,
        "fn expand_entries(",
        "pub(crate) fn expand_entries(",
        WRAPPED,
    ),
    edit(
        FST,
        "    data_bytes: Vec<u8>,",
        "    pub(crate) data_bytes: Vec<u8>,",
        LOADED,
    ),
    edit(
        FST,
        "    time_indices: Vec<TimeTableIdx>,",
        "    pub(crate) time_indices: Vec<TimeTableIdx>,",
        LOADED,
    ),
    edit(
        FST,
        "    max_states: States,",
        "    pub(crate) max_states: States,",
        LOADED,
    ),
];

const VALUE: &str = "src/signal/value.rs";
const TRANSFORM: &str = "src/signal/transform.rs";
const SIGNAL: &str = "src/signal/mod.rs";
const FST: &str = "src/fst.rs";
const WAVEMEM: &str = "src/wavemem.rs";
const HIERARCHY: &str = "src/hierarchy.rs";
const FILES: [&str; 6] = [VALUE, TRANSFORM, SIGNAL, FST, WAVEMEM, HIERARCHY];

const HIERARCHY_ITEMS: &[&str] = &[
    "pub struct SignalRef(",
    "impl SignalRef {",
    "pub enum SignalEncoding {",
];
const WAVEMEM_ITEMS: &[&str] = &[
    "pub fn check_if_changed_and_truncate(",
    "pub fn write_n_state_from_ascii(",
];
const FST_ITEMS: &[&str] = &[
    "struct SignalWriter {",
    "impl SignalWriter {",
    "pub fn get_len_and_meta(",
    "pub fn get_bytes_per_entry(",
    "const META_MASK",
    "fn expand_entries(",
    "pub fn push_zeros(",
];
const SIGNAL_ITEMS: &[&str] = &[
    "pub type TimeTableIdx",
    "pub type NonZeroTimeTableIdx",
    "pub enum FixedWidthEncoding {",
    "impl FixedWidthEncoding {",
    "pub struct Signal {",
    "impl Debug for Signal {",
    "impl PartialEq for Signal {",
    "impl Eq for Signal {}",
    "impl Signal {",
    "pub struct SignalChangeIterator<'a> {",
    "impl<'a> SignalChangeIterator<'a> {",
    "impl<'a> Iterator for SignalChangeIterator<'a> {",
    "fn find_offset_from_time_table_idx(",
    "fn binary_search(",
    "pub struct DataOffset {",
    "pub struct SignalChangeData(",
    "enum ChangeData {",
    "impl SignalChangeData {",
    "impl Debug for SignalChangeData {",
];

// Only the items' own imports are written here: each file's import lines name much that isn't cut out.
const SIGNAL_IMPORTS: &str = "use crate::stand_ins::TryFromPrimitive;
use crate::wellen::{SignalEncoding, SignalRef};
use std::fmt::{Debug, Formatter};
use std::num::NonZeroU32;
pub use value::{Bit, BitVecRef, Real, SignalValue, SignalValueRef, States, bit_char_to_num};
";
const FST_IMPORTS: &str = "use crate::stand_ins::{FstSignalHandle, FstSignalValue};
use crate::wellen::signal::{FixedWidthEncoding, Signal, States, TimeTableIdx};
use crate::wellen::wavemem::{check_if_changed_and_truncate, write_n_state_from_ascii};
use crate::wellen::{SignalEncoding, SignalRef};
";
const WAVEMEM_IMPORTS: &str = "use crate::wellen::signal::{States, bit_char_to_num};\n";
const HIERARCHY_IMPORTS: &str = "use std::num::NonZeroU32;\n";
const ROOT_IMPORTS: &str = "pub use hierarchy::{SignalEncoding, SignalRef};
pub use signal::{BitVecRef, Signal, States, TimeTableIdx};
";

const fn edit(
    file: &'static str,
    from: &'static str,
    to: &'static str,
    reason: &'static str,
) -> Edit {
    Edit {
        file,
        from,
        to,
        reason,
    }
}

fn main() {
    println!("cargo::rerun-if-env-changed=WELLEN_SRC");
    println!("cargo::rustc-check-cfg=cfg(wellen)");
    println!("cargo::rustc-check-cfg=cfg(feature, values(\"serde1\"))");
    let root = source_folder();
    for file in FILES {
        println!("cargo::rerun-if-changed={}", root.join(file).display());
    }
    if FILES.iter().all(|file| root.join(file).is_file()) {
        let out = PathBuf::from(env::var("OUT_DIR").expect("cargo sets OUT_DIR"));
        fs::write(out.join("wellen.rs"), modules(&root)).expect("OUT_DIR can be written");
        println!("cargo::rustc-cfg=wellen");
        println!("cargo::metadata=PRESENT=1");
    }
}

fn source_folder() -> PathBuf {
    match env::var_os("WELLEN_SRC") {
        Some(folder) => PathBuf::from(folder),
        None => {
            let here = env::var("CARGO_MANIFEST_DIR").expect("cargo sets CARGO_MANIFEST_DIR");
            Path::new(&here).join("../../../shared/docs/src")
        }
    }
}

/// The modules under wellen's names, each with the items that are needed of it.
fn modules(root: &Path) -> String {
    let whole = |file| edited(file, &text(root, file));
    let items = |file, firsts: &[&str]| edited(file, &cut(file, &text(root, file), firsts));
    let signal = format!(
        "{SIGNAL_IMPORTS}{}{}{}",
        items(SIGNAL, SIGNAL_ITEMS),
        module("value", &whole(VALUE)),
        module("transform", &whole(TRANSFORM)),
    );
    let fst = format!("{FST_IMPORTS}{}", items(FST, FST_ITEMS));
    let wavemem = format!("{WAVEMEM_IMPORTS}{}", items(WAVEMEM, WAVEMEM_ITEMS));
    let hierarchy = format!("{HIERARCHY_IMPORTS}{}", items(HIERARCHY, HIERARCHY_ITEMS));
    [
        ROOT_IMPORTS.to_string(),
        module("hierarchy", &hierarchy),
        module("wavemem", &wavemem),
        module("fst", &fst),
        module("signal", &signal),
    ]
    .concat()
}

fn module(name: &str, body: &str) -> String {
    format!("pub mod {name} {{\n{body}\n}}\n")
}

fn text(root: &Path, file: &str) -> String {
    let path = root.join(file);
    fs::read_to_string(&path).unwrap_or_else(|error| panic!("{}: {error}", path.display()))
}

fn edited(file: &str, text: &str) -> String {
    let mut out = text.to_string();
    for edit in EDITS.iter().filter(|edit| edit.file == file) {
        assert!(out.contains(edit.from), "{file} has no {:?}", edit.from);
        out = out.replace(edit.from, edit.to);
    }
    out
}

/// Every item of `text` whose first line starts with one of `firsts`, with its attributes and documentation.
fn cut(file: &str, text: &str, firsts: &[&str]) -> String {
    let lines: Vec<&str> = text.lines().collect();
    let mut out = String::new();
    for first in firsts {
        let starts: Vec<usize> = (0..lines.len())
            .filter(|&at| lines[at].starts_with(first))
            .collect();
        assert!(!starts.is_empty(), "{file} has no item {first:?}");
        for at in starts {
            let from = attributes_start(&lines, at);
            out.push_str(&lines[from..item_end(&lines, at)].join("\n"));
            out.push_str("\n\n");
        }
    }
    out
}

fn attributes_start(lines: &[&str], at: usize) -> usize {
    let above = lines[..at].iter().rev();
    at - above
        .take_while(|line| line.starts_with("#[") || line.starts_with("///"))
        .count()
}

/// The line behind an item: its braces are closed again, or it ended in a semicolon without any.
fn item_end(lines: &[&str], at: usize) -> usize {
    let mut depth = 0;
    let mut opened = false;
    for (number, line) in lines.iter().enumerate().skip(at) {
        depth += line.matches('{').count();
        opened |= depth > 0;
        depth -= line.matches('}').count();
        if depth == 0 && (opened || line.ends_with(';')) {
            return number + 1;
        }
    }
    panic!("the item {:?} does not end", lines[at]);
}
