//! The contracts of the Rattle code fit on a line or two: what a function ensures has at most 300 characters, as has what it requires,
//! and what is ensured by a public function without a `requires`, which is an operation or an export, at most 240.

use std::fs;
use std::path::{Path, PathBuf};

const MOST: usize = 300;
const MOST_OF_AN_OPERATION: usize = 240;

struct Function {
    place: String,
    is_public: bool,
    /// The characters of the facts that it requires, and of those that it ensures, each between its clause's braces.
    required: usize,
    ensured: usize,
}

impl Function {
    fn limit(&self) -> usize {
        if self.is_public && self.required == 0 {
            MOST_OF_AN_OPERATION
        } else {
            MOST
        }
    }

    fn longest(&self) -> usize {
        self.required.max(self.ensured)
    }

    /// A clause, whose kind may have a name behind it where a function has several of the kind.
    fn take_clause(&mut self, kind: &str, rest: &str) {
        let fact = rest.split_once('{').map(|(_, fact)| fact);
        // A trait's clause ends its method.
        let fact = fact.and_then(|fact| fact.trim_end_matches(';').strip_suffix('}'));
        let fact = fact.expect("a clause stands on one line").trim();
        let characters = if kind == "requires" {
            &mut self.required
        } else {
            &mut self.ensured
        };
        *characters += fact.chars().count();
    }
}

fn sources(folder: &Path, found: &mut Vec<PathBuf>) {
    for entry in fs::read_dir(folder).expect("a folder of the crates") {
        let path = entry.expect("an entry of it").path();
        if path.is_dir() {
            // What `rt` keeps in a crate's folder has copies of sources, of other times too.
            if !path.ends_with("out") {
                sources(&path, found);
            }
        } else if path.extension().is_some_and(|extension| extension == "rt") {
            found.push(path);
        }
    }
}

fn functions(path: &Path) -> Vec<Function> {
    let text = fs::read_to_string(path).expect("a source");
    let mut functions: Vec<Function> = Vec::new();
    for (number, line) in text.lines().enumerate() {
        let line = line.trim_start();
        let is_public = line.starts_with("pub fn ") || line.starts_with("pub extern \"C\" fn ");
        if is_public || line.starts_with("fn ") || line.starts_with("pub(crate) fn ") {
            functions.push(Function {
                place: format!("{}:{}", path.display(), number + 1),
                is_public,
                required: 0,
                ensured: 0,
            });
        } else if let Some((kind @ ("requires" | "ensures"), rest)) = line.split_once(' ') {
            let function = functions
                .last_mut()
                .expect("a clause stands under its function");
            function.take_clause(kind, rest);
        }
    }
    functions
}

#[test]
fn contracts_fit() {
    let crates = Path::new(env!("CARGO_MANIFEST_DIR")).join("../../crates");
    let mut paths = Vec::new();
    sources(&crates, &mut paths);
    let functions: Vec<Function> = paths.iter().flat_map(|path| functions(path)).collect();
    assert!(
        functions
            .iter()
            .any(|function| function.limit() == MOST_OF_AN_OPERATION && 0 < function.longest())
    );
    let long: Vec<String> = functions
        .iter()
        .filter(|function| function.limit() < function.longest())
        .map(|function| format!("{}: {} characters", function.place, function.longest()))
        .collect();
    assert!(
        long.is_empty(),
        "contracts too long to read:\n{}",
        long.join("\n")
    );
}
