//! The header, the Rust declarations and the Rattle source agree on every function's name, parameters and result, and on every struct's
//! fields; so do the Rust declarations and the Rattle source of the functions that the benchmarks time. All three have the same version, and
//! the same numbers and names of refusals.

use std::collections::BTreeMap;
use std::fs;
use std::path::Path;
use yoksimert::{Refusal, VERSION, raw};

/// A struct by its fields, or a function by its parameters and its result: names with types, the types in Rust's spelling.
type Items = BTreeMap<String, Vec<(String, String)>>;

const RESULT: &str = "result";
const EXPORTED: &str = "pub extern \"C\" fn ";

fn file(path: &str) -> String {
    let path = Path::new(env!("CARGO_MANIFEST_DIR"))
        .join("../..")
        .join(path);
    fs::read_to_string(&path).unwrap_or_else(|error| panic!("{}: {error}", path.display()))
}

/// The files of a folder, one behind the other.
fn folder(path: &str) -> String {
    let folder = Path::new(env!("CARGO_MANIFEST_DIR"))
        .join("../..")
        .join(path);
    let entries = fs::read_dir(folder).unwrap_or_else(|error| panic!("{path}: {error}"));
    let names = entries.map(|entry| entry.expect("the folder is read").file_name());
    let texts = names.map(|name| file(&format!("{path}/{}", name.to_string_lossy())));
    texts.collect()
}

/// The text without comments, in one line with single spaces.
fn flattened(text: &str) -> String {
    let mut rest = text;
    let mut out = String::new();
    while let Some(at) = rest.find("/*") {
        out.push_str(&rest[..at]);
        rest = rest[at..].split_once("*/").expect("the comment ends").1;
    }
    out.push_str(rest);
    let lines = out
        .lines()
        .map(|line| line.split("//").next().unwrap_or_default());
    let words: Vec<_> = lines.flat_map(str::split_whitespace).collect();
    // An array's length, so that a semicolon ends a declaration or a field alone.
    words
        .join(" ")
        .replace("; 8]", " by 8]")
        .replace("; 64]", " by 64]")
}

/// What stands between two marks, for each place of the first.
fn between<'a>(text: &'a str, from: &str, to: &str) -> Vec<&'a str> {
    let behind = text.split(from).skip(1);
    behind
        .map(|rest| rest.split(to).next().unwrap_or_default())
        .collect()
}

fn entries(list: &str, separator: char) -> impl Iterator<Item = &str> {
    list.split(separator)
        .map(str::trim)
        .filter(|entry| !entry.is_empty())
}

/// `name: type` of Rust and Rattle; a lent slice is a pointer and a length, a lent array or struct a pointer.
fn named(entry: &str) -> Vec<(String, String)> {
    let (name, kind) = entry.split_once(':').expect("a name and a type");
    let (name, kind) = (name.trim().trim_start_matches("pub "), kind.trim());
    let slice = |pointer: &str, element: &str| {
        let element = element.trim_end_matches(']');
        vec![
            (name.to_string(), format!("{pointer} {element}")),
            (format!("{name}_len"), "usize".to_string()),
        ]
    };
    if kind.contains(" by ") {
        let pointer = kind.replace("&mut ", "*mut ").replace('&', "*const ");
        vec![(name.to_string(), pointer)]
    } else if let Some(element) = kind.strip_prefix("&mut [") {
        slice("*mut", element)
    } else if let Some(element) = kind.strip_prefix("&[") {
        slice("*const", element)
    } else if let Some(lent) = kind.strip_prefix("&mut ") {
        vec![(name.to_string(), format!("*mut {lent}"))]
    } else {
        vec![(name.to_string(), kind.to_string())]
    }
}

/// `type name` of C, or `type name[length]`.
fn typed(entry: &str) -> (String, String) {
    if let Some((element, length)) = entry.trim_end_matches(']').split_once('[') {
        let (name, kind) = typed(element);
        return (name, format!("[{kind} by {length}]"));
    }
    let at = entry.rfind([' ', '*']).expect("a type and a name") + 1;
    let (kind, name) = entry.split_at(at);
    (name.to_string(), c_type(kind.trim()))
}

/// A parameter: an array is a pointer to it.
fn parameter(entry: &str) -> (String, String) {
    let constant = entry
        .strip_prefix("const ")
        .filter(|rest| rest.contains('['));
    let (name, kind) = typed(constant.unwrap_or(entry));
    match (kind.contains(" by "), constant) {
        (true, Some(_)) => (name, format!("*const {kind}")),
        (true, None) => (name, format!("*mut {kind}")),
        (false, _) => (name, kind),
    }
}

fn c_type(kind: &str) -> String {
    if let Some(kind) = kind.strip_suffix('*') {
        let kind = kind.trim();
        return match kind.strip_prefix("const ") {
            Some(kind) => format!("*const {}", c_type(kind)),
            None => format!("*mut {}", c_type(kind)),
        };
    }
    match kind {
        "uint8_t" => "u8".to_string(),
        "uint16_t" => "u16".to_string(),
        "uint32_t" => "u32".to_string(),
        "uint64_t" => "u64".to_string(),
        "int64_t" => "i64".to_string(),
        "size_t" => "usize".to_string(),
        "bool" => "bool".to_string(),
        _ => c_struct(kind),
    }
}

/// `yoksimert_made` is `FlatMade`; `yoksimert_signed_number` is `FlatSigned`, as C has a function by the shorter name.
fn c_struct(name: &str) -> String {
    let name = name
        .strip_prefix("yoksimert_")
        .unwrap_or_else(|| panic!("{name} is no type"));
    let name = name.strip_suffix("_number").unwrap_or(name);
    format!("Flat{}{}", name[..1].to_uppercase(), &name[1..])
}

fn structs(text: &str) -> Items {
    let items = between(text, "#[repr(C)]", "}");
    let fields = items.iter().map(|item| {
        let item = item.split_once("pub struct ").expect("a struct").1;
        let (name, fields) = item.split_once('{').expect("fields");
        let fields = entries(fields, ',').flat_map(named).collect();
        (name.trim().to_string(), fields)
    });
    fields.collect()
}

/// Functions that begin with `before` and whose result stands before one of `after`.
fn functions(text: &str, before: &str, after: &[&str]) -> Items {
    let functions = text.split(before).skip(1).map(|rest| {
        let ends = after.iter().filter_map(|mark| rest.find(mark));
        let item = &rest[..ends.min().expect("the declaration ends")];
        let (name, rest) = item.split_once('(').expect("parameters");
        let (parameters, result) = rest.split_once(')').expect("the parameters end");
        let result = result.trim().trim_start_matches("-> ").to_string();
        let mut all: Vec<_> = entries(parameters, ',').flat_map(named).collect();
        all.push((RESULT.to_string(), result));
        (name.to_string(), all)
    });
    functions.collect()
}

fn of_rattle() -> Items {
    let text = flattened(&folder("crates/yoksimert/src"));
    let mut items = structs(&text);
    let exported = functions(&text, EXPORTED, &[" ensures"]);
    assert_eq!(
        exported.len(),
        text.matches("#[unsafe(no_mangle)]").count(),
        "an exported function with no contract"
    );
    items.extend(exported);
    items
}

fn of_rust(text: &str) -> Items {
    let text = flattened(text);
    let mut items = structs(&text);
    let blocks = between(&text, "unsafe extern \"C\" {", "}").concat();
    items.extend(functions(&blocks, "fn ", &[";"]));
    items
}

fn of_header() -> Items {
    // A static is the program's that includes the header, and the preprocessor's lines are nobody's.
    let text = file("include/yoksimert.h");
    let declared = text
        .lines()
        .filter(|line| !line.starts_with('#') && !line.starts_with("static "));
    let text = flattened(&declared.collect::<Vec<_>>().join("\n"));
    let mut items = Items::new();
    for item in between(&text, "typedef struct ", "}") {
        let (name, fields) = item.split_once('{').expect("fields");
        items.insert(
            c_struct(name.trim()),
            entries(fields, ';').map(typed).collect(),
        );
    }
    for declaration in text.split([';', '}', '{']) {
        let Some((head, parameters)) = declaration.split_once('(') else {
            continue;
        };
        let (name, result) = typed(head.trim());
        let parameters = parameters.split_once(')').expect("the parameters end").0;
        let listed = entries(parameters, ',').filter(|entry| *entry != "void");
        let mut all: Vec<_> = listed.map(parameter).collect();
        all.push((RESULT.to_string(), result));
        items.insert(name, all);
    }
    items
}

#[test]
fn the_three_texts_agree() {
    let rattle = of_rattle();
    assert!(rattle.len() >= 11 + 18, "{rattle:#?}");
    assert_eq!(of_rust(&folder("rust/yoksimert/src/raw")), rattle);
    assert_eq!(of_header(), rattle);
}

#[test]
fn the_benchmarks_texts_agree() {
    let text = flattened(&file("crates/bench/src/lib.rt"));
    let mut rattle = structs(&text);
    rattle.extend(functions(&text, EXPORTED, &[" requires", " {"]));
    assert_eq!(rattle.len(), 1 + 6, "{rattle:#?}");
    assert_eq!(of_rust(&file("rust/bench/src/inner.rs")), rattle);
}

/// The variants of Rattle's enum: one with no number has that of the one before and 1.
fn refusals_of_rattle() -> Vec<(u32, String)> {
    let text = folder("crates/fst/src");
    let variants = between(&text, "pub enum Refusal {", "}").concat();
    let mut number = 0;
    let numbered = variants
        .split(',')
        .map(str::trim)
        .filter(|name| !name.is_empty());
    let numbered = numbered.map(|variant| {
        let (name, given) = variant.split_once(" = ").unwrap_or((variant, ""));
        number = given.parse().unwrap_or(number + 1);
        (number, name.to_string())
    });
    numbered.collect()
}

fn refusals() -> Vec<(u32, String)> {
    let all = Refusal::ALL.iter();
    all.map(|refusal| (u32::from(refusal.number()), format!("{refusal:?}")))
        .collect()
}

#[test]
fn the_numbers_of_refusals_agree() {
    assert!(refusals().len() >= 18, "{:?}", refusals());
    assert_eq!(refusals_of_rattle(), refusals());
}

/// `WidthTooLarge` is `YOKSIMERT_WIDTH_TOO_LARGE`.
fn c_constant(name: &str) -> String {
    let mut out = "YOKSIMERT".to_string();
    for letter in name.chars() {
        if letter.is_uppercase() {
            out.push('_');
        }
        out.extend(letter.to_uppercase());
    }
    out
}

#[test]
fn the_header_names_every_refusal() {
    let text = flattened(&file("include/yoksimert.h"));
    let listed = between(&text, "enum {", "}");
    let listed: Vec<_> = listed.iter().flat_map(|list| entries(list, ',')).collect();
    let all = refusals().into_iter();
    let all: Vec<_> = all
        .map(|(number, name)| format!("{} = {number}", c_constant(&name)))
        .collect();
    assert_eq!(listed, all);
}

/// The number of the version stands in the header, in the crate and in the name of a function, which answers it.
#[test]
fn the_versions_agree() {
    let function = format!("yoksimert_version_{VERSION}");
    let header = file("include/yoksimert.h");
    for line in [
        format!("#define YOKSIMERT_VERSION {VERSION}"),
        format!("#define yoksimert_version {function}"),
    ] {
        assert!(header.lines().any(|of_header| of_header == line), "{line}");
    }
    let items = of_header().into_keys();
    let versions: Vec<_> = items
        .filter(|name| name.starts_with("yoksimert_version"))
        .collect();
    assert_eq!(versions, [function]);
    assert_eq!(raw::version(), VERSION);
}
