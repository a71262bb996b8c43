//! The documents keep up with the repository: what they cite is there, their links lead somewhere, and their prose is wrapped.

use std::collections::{BTreeMap, BTreeSet};
use std::fs;
use std::path::{Path, PathBuf};

const DOCUMENTS: [&str; 12] = [
    "README.md",
    "docs/FORMAT.md",
    "docs/PROOFS.md",
    "docs/DECISIONS.md",
    "docs/DIFFERENCES.md",
    "docs/FROM-WELLEN.md",
    "docs/BENCHMARKS.md",
    "docs/LANDINGS.md",
    "docs/PACKAGE.md",
    "crates/answers/README.md",
    "rust/compare/README.md",
    "rust/yoksimert/README.md",
];
const WIDEST: usize = 120;

fn root() -> PathBuf {
    Path::new(env!("CARGO_MANIFEST_DIR")).join("../..")
}

fn file(path: &str) -> String {
    let path = root().join(path);
    fs::read_to_string(&path).unwrap_or_else(|error| panic!("{}: {error}", path.display()))
}

/// Folders of what is built, with copies of sources.
const MADE: [&str; 2] = ["/target", "/out"];

/// The files below a folder, by their paths from there.
fn files(folder: &str) -> Vec<String> {
    let Ok(entries) = fs::read_dir(root().join(folder)) else {
        return Vec::new();
    };
    let mut all = Vec::new();
    for entry in entries {
        let entry = entry.expect("the folder is read");
        let path = format!("{folder}/{}", entry.file_name().to_string_lossy());
        if !entry.path().is_dir() {
            all.push(path);
        } else if !MADE.iter().any(|made| path.ends_with(made)) {
            all.extend(files(&path));
        }
    }
    all
}

fn crates() -> Vec<String> {
    let list = file("crates.txt");
    let lines = list.lines().filter(|line| !line.starts_with('#'));
    let named = lines.filter_map(|line| line.split([' ', ':']).next());
    let names: Vec<_> = named.filter(|name| !name.is_empty()).collect();
    names.into_iter().map(str::to_string).collect()
}

/// The lines of a document outside its programs, numbered from 1.
fn lines(text: &str) -> Vec<(usize, &str)> {
    let mut inside = false;
    let outside = text.lines().enumerate().filter(|(_, line)| {
        let fence = line.starts_with("```");
        inside ^= fence;
        !inside && !fence
    });
    outside.map(|(at, line)| (at + 1, line)).collect()
}

/// The code spans of a line, and what stands between them.
fn spans(line: &str) -> impl Iterator<Item = (bool, &str)> {
    let parts = line.split('`').enumerate();
    parts.map(|(at, part)| (at % 2 == 1, part))
}

#[test]
fn prose_is_wrapped() {
    for document in DOCUMENTS {
        let text = file(document);
        for (at, line) in lines(&text) {
            let long = line.chars().count() > WIDEST && !line.starts_with('|');
            assert!(!long, "{document}:{at} has more than {WIDEST} characters");
        }
    }
}

/// A heading as a link names it.
fn anchor(heading: &str) -> String {
    let kept = heading
        .trim_start_matches('#')
        .trim()
        .chars()
        .filter(|c| c.is_alphanumeric() || [' ', '-', '_'].contains(c));
    kept.collect::<String>().to_lowercase().replace(' ', "-")
}

#[test]
fn links_lead_somewhere() {
    for document in DOCUMENTS {
        let text = file(document);
        let here = Path::new(document).parent().expect("a folder");
        for (at, line) in lines(&text) {
            for link in line.split("](").skip(1) {
                let link = link.split(')').next().unwrap_or_default();
                let (path, heading) = link.split_once('#').unwrap_or((link, ""));
                let target = match path {
                    "" => document.to_string(),
                    _ => here.join(path).to_string_lossy().into_owned(),
                };
                let target = file(&target);
                let mut headings = target.lines().filter(|line| line.starts_with('#'));
                let there = heading.is_empty() || headings.any(|line| anchor(line) == heading);
                assert!(there, "{document}:{at}: {link}");
            }
        }
    }
}

/// Paths from the repository's root, in code spans or in prose.
#[test]
fn paths_are_there() {
    let folders = ["crates/", "docs/", "include/", "rust/"];
    for document in DOCUMENTS {
        let text = file(document);
        for (at, line) in lines(&text) {
            let words = line.split(|c: char| c.is_whitespace() || "`()".contains(c));
            let paths = words.filter(|word| folders.iter().any(|folder| word.starts_with(folder)));
            for path in paths.filter(|path| !path.contains('*')) {
                let path = path.trim_end_matches(['.', ',', ';', ':']);
                assert!(root().join(path).exists(), "{document}:{at}: {path}");
            }
        }
    }
}

/// The README's table of folders has every crate.
#[test]
fn the_readme_names_every_crate() {
    let text = file("README.md");
    let manifest = file("rust/Cargo.toml");
    let members = manifest
        .split(['[', ']'])
        .find(|part| part.contains("\"yoksimert\""));
    let members = members.expect("the members").split(", ");
    let rust = members.map(|name| format!("rust/{}", name.trim_matches('"')));
    let rattle = crates().into_iter().map(|name| format!("crates/{name}"));
    for folder in rattle.chain(rust) {
        assert!(text.contains(&format!("\n| `{folder}` |")), "{folder}");
    }
}

/// The documents for services name the Rust that the crate's manifest asks for.
#[test]
fn the_least_rust_is_the_manifests() {
    let manifest = file("rust/yoksimert/Cargo.toml");
    let version = manifest.split("rust-version = \"").nth(1);
    let version = version.and_then(|rest| rest.split('"').next());
    let named = format!("Rust {}", version.expect("a version"));
    for document in ["README.md", "docs/PACKAGE.md", "rust/yoksimert/README.md"] {
        assert!(file(document).contains(&named), "{document}");
    }
}

/// Each difference from wellen is held by the test that its row names.
#[test]
fn the_differences_are_tested() {
    let tests = file("rust/compare/tests/differences.rs");
    let text = file("docs/DIFFERENCES.md");
    let rows = text
        .lines()
        .filter(|line| line.starts_with('|') && !line.contains("---"));
    let names = rows.filter_map(|row| row.trim_end_matches([' ', '|']).rsplit("| ").next());
    let names: BTreeSet<&str> = names.filter(|name| *name != "test").collect();
    assert!(20 <= names.len(), "{names:?}");
    for name in names {
        assert!(tests.contains(&format!("#[test]\nfn {name}(")), "{name}");
    }
}

/// Files of `specs/` that people must believe: all but the inner ones.
fn definitions() -> BTreeSet<String> {
    let specs = crates().into_iter().flat_map(|name| {
        let files = files(&format!("crates/{name}/specs")).into_iter();
        files.map(move |path| (name.clone(), path))
    });
    let believed = specs.filter(|(_, path)| {
        !path.ends_with("/Lib.antt")
            && path.ends_with(".antt")
            && !file(path).starts_with("-- Inner")
    });
    let named = believed.map(|(name, path)| {
        let stem = Path::new(&path).file_stem().expect("a file");
        format!("{name}/{}", stem.to_string_lossy())
    });
    named.collect()
}

/// docs/FORMAT.md names the files of definitions for each of its sections, and none is left out.
#[test]
fn the_format_names_every_file_of_definitions() {
    let text = file("docs/FORMAT.md");
    let table = text.split("| section | definitions |").nth(1);
    let table = table.expect("the table of definitions").trim_start();
    let rows = table.lines().take_while(|line| line.starts_with('|'));
    let cells = rows.skip(1).map(|row| {
        let cells: Vec<_> = row.split('|').collect();
        cells[2].trim().to_string()
    });
    let named = cells.flat_map(|cell| {
        let names: Vec<_> = cell.split(", ").map(str::to_string).collect();
        names
    });
    assert_eq!(named.collect::<BTreeSet<_>>(), definitions());
}

/// What the crates declare, by crate and file without the ending, that of `src/` under no file; and their edits.
struct Declared {
    names: BTreeMap<(String, String), BTreeSet<String>>,
    edits: BTreeSet<(String, String)>,
}

fn declared() -> Declared {
    let (mut names, mut edits) = (BTreeMap::<_, BTreeSet<_>>::new(), BTreeSet::new());
    for name in crates() {
        for path in files(&format!("crates/{name}")) {
            let (stem, ending) = path.rsplit_once('.').unwrap_or((&path, ""));
            let stem = stem.rsplit('/').next().unwrap_or_default().to_string();
            let place = match ending {
                "rt" => (name.clone(), String::new()),
                "antt" => (name.clone(), stem),
                "edit" => {
                    edits.insert((name.clone(), stem));
                    continue;
                }
                _ => continue,
            };
            let of_file = names.entry(place).or_default();
            of_file.extend(file(&path).lines().flat_map(declared_in));
        }
    }
    Declared { names, edits }
}

/// Words before the name of a type, a function or a constant, and before the name in a signature of the logic.
const DECLARING: [&str; 6] = ["fn", "struct", "enum", "const", "record", "data"];
const MODIFIERS: [&str; 3] = ["pub", "abbrev", "unfoldable"];

/// The names that a line declares.
fn declared_in(line: &str) -> Vec<String> {
    let words = line.split(|c: char| c.is_whitespace() || "({[<:;".contains(c));
    let words: Vec<_> = words.filter(|word| !word.is_empty()).collect();
    let pairs = words.windows(2);
    let declared = pairs.filter(|pair| DECLARING.contains(&pair[0]));
    let mut names: Vec<_> = declared.map(|pair| pair[1].to_string()).collect();
    if let Some((before, _)) = line.split_once(" :") {
        let words = before.split_whitespace();
        let words: Vec<_> = words.skip_while(|word| MODIFIERS.contains(word)).collect();
        names.extend((words.len() == 1).then(|| words[0].to_string()));
    }
    names
}

impl Declared {
    fn in_file(&self, name: &str, file: &str, word: &str) -> bool {
        let names = self.names.get(&(name.to_string(), file.to_string()));
        names.is_some_and(|names| names.contains(word))
    }

    /// In the code of a crate, or an edit of it.
    fn in_crate(&self, name: &str, word: &str) -> bool {
        let edit = (name.to_string(), word.to_string());
        let is_there = |part: &str| self.in_file(name, "", part);
        self.edits.contains(&edit) || word.split("::").all(is_there)
    }

    /// Where a name is declared.
    fn places(&self, word: &str) -> Vec<String> {
        let last = word.rsplit("::").next().unwrap_or_default();
        let files = self.names.iter().filter(|(_, names)| names.contains(last));
        let edits = self.edits.iter().filter(|(_, edit)| edit == word);
        let places = files.map(|((of, file), _)| format!("{of}/{file}"));
        places
            .chain(edits.map(|(of, _)| format!("{of}/must-fail")))
            .collect()
    }
}

/// `States::{mark, bits}` is `States::mark` and `States::bits`.
fn expanded(span: &str) -> Vec<String> {
    let Some((before, rest)) = span.split_once('{') else {
        return vec![span.to_string()];
    };
    let parts = rest.trim_end_matches('}').split(", ");
    parts.map(|part| format!("{before}{part}")).collect()
}

/// Where names are looked for: in a crate's code, or in one of its files of definitions and proofs.
type Place = Option<(String, String)>;

/// The place that a word names, if it names one; a file that isn't there is told.
fn place(word: &str, declared: &Declared, wrong: &mut Vec<String>) -> Place {
    let word = word.trim_matches(|c: char| !c.is_alphanumeric());
    let parts: Vec<_> = word.split('/').collect();
    let code = |name: &str| (name.to_string(), String::new());
    match parts.as_slice() {
        [name] if declared.names.contains_key(&code(name)) => Some(code(name)),
        [name, .., file] if file.starts_with(char::is_uppercase) => {
            let place = (name.to_string(), file.to_string());
            if !declared.names.contains_key(&place) {
                wrong.push(format!("no file {word}"));
            }
            Some(place)
        }
        _ => None,
    }
}

const PLAIN: [&str; 3] = ["requires", "ensures", "pub"];

/// Whether a code span is a name, and not a command, a path or an example.
fn is_name(span: &str) -> bool {
    let plain = span
        .chars()
        .all(|c| c.is_alphanumeric() || "_-:'".contains(c));
    plain && span.starts_with(char::is_alphabetic) && !PLAIN.contains(&span)
}

/// Names of a line that are declared nowhere, or not where the line says.
fn undeclared(line: &str, declared: &Declared) -> Vec<String> {
    let (mut wrong, mut here) = (Vec::new(), None);
    for (is_code, part) in spans(line) {
        if !is_code {
            let words = part.split_whitespace();
            let places: Vec<_> = words
                .filter_map(|word| place(word, declared, &mut wrong))
                .collect();
            here = places.into_iter().next_back().or(here);
            continue;
        }
        for name in expanded(part).iter().filter(|name| is_name(name)) {
            let found = match &here {
                None => !declared.places(name).is_empty(),
                Some((of, file)) if file.is_empty() => declared.in_crate(of, name),
                Some((of, file)) => declared.in_file(of, file, name),
            };
            if !found {
                let (of, file) = here.clone().unwrap_or_default();
                let places = declared.places(name).join(", ");
                wrong.push(format!("no {name} in {of}/{file}, but in: {places}"));
            }
        }
    }
    wrong
}

/// Every name that docs/PROOFS.md cites is declared where it says. The first cell of a row with a sentence of document 01 is that sentence.
#[test]
fn the_proofs_are_there() {
    let (text, declared) = (file("docs/PROOFS.md"), declared());
    let (mut wrong, mut quoted) = (Vec::new(), false);
    for (at, line) in lines(&text) {
        let told = if let Some(row) = line.strip_prefix('|') {
            quoted |= row.starts_with(" sentence") || row.starts_with(" what must not pass");
            let cells = row.split(" | ").skip(usize::from(quoted));
            cells.flat_map(|cell| undeclared(cell, &declared)).collect()
        } else {
            quoted = false;
            let named = spans(line)
                .filter(|(is_code, _)| *is_code)
                .flat_map(|(_, span)| expanded(span));
            let names: Vec<_> = named.filter(|name| is_name(name)).collect();
            let lost = names
                .into_iter()
                .filter(|name| declared.places(name).is_empty());
            lost.map(|name| format!("no {name}")).collect::<Vec<_>>()
        };
        wrong.extend(
            told.into_iter()
                .map(|word| format!("docs/PROOFS.md:{at}: {word}")),
        );
    }
    assert!(wrong.is_empty(), "{}", wrong.join("\n"));
}

/// Every edit that must be refused is named in docs/PROOFS.md, or all of its crate are.
#[test]
fn every_edit_is_named() {
    let text = file("docs/PROOFS.md");
    let all = ["value", "wavemem"];
    for (name, edit) in declared().edits {
        let named = all.contains(&name.as_str()) || text.contains(&format!("`{edit}`"));
        assert!(named, "crates/{name}/must-fail/{edit}.edit");
    }
}

/// The words of all sources, and the names of their files.
fn words() -> BTreeSet<String> {
    let sources = ["crates", "rust", "include"].into_iter().flat_map(files);
    let endings = [".rt", ".antt", ".edit", ".rs", ".h"];
    let sources = sources.filter(|path| endings.iter().any(|ending| path.ends_with(ending)));
    let mut all = BTreeSet::new();
    for path in sources.filter(|path| !path.ends_with("/documents.rs")) {
        let text = file(&path) + " " + &path;
        let words = text.split(|c: char| !c.is_alphanumeric() && c != '_' && c != '-');
        all.extend(words.map(str::to_string));
    }
    all
}

/// The names in the decisions and beside the times are words of the sources, or the C library's.
#[test]
fn names_are_known() {
    let (words, of_c) = (words(), ["memset", "memmove"]);
    for document in ["docs/DECISIONS.md", "docs/BENCHMARKS.md"] {
        let text = file(document);
        for (at, line) in lines(&text) {
            let code = spans(line).filter(|(is_code, span)| *is_code && is_name(span));
            for (_, name) in code.filter(|(_, name)| name.len() > 3 && !of_c.contains(name)) {
                let last = name.rsplit("::").next().unwrap_or_default();
                assert!(words.contains(last), "{document}:{at}: {name}");
            }
        }
    }
}
