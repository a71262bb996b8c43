//! Stored answers as equations between the definitions of `specs/` and what was stored, for the Rattle checker to compute.

use crate::operations::OPERATIONS;
use std::fs;
use std::path::Path;

/// A module that equations import. Names have spaces between them.
pub struct Module {
    path: &'static str,
    /// What equations name of it.
    named: &'static str,
    /// What of a library the checker is told to compute; of a file in `specs/` that is every definition that can be.
    computed: &'static str,
}

impl Module {
    /// A module of a crate's `specs/`, or of what its code declares.
    pub const fn new(path: &'static str, named: &'static str) -> Self {
        Self::library(path, named, "")
    }

    pub const fn library(path: &'static str, named: &'static str, computed: &'static str) -> Self {
        Self {
            path,
            named,
            computed,
        }
    }

    fn computed(&self, crates: &Path) -> Result<Vec<String>, String> {
        let text = match self.path.strip_prefix("Rattle.") {
            Some(path) if !path.starts_with("std.") && !path.contains(".declared.") => {
                let file = crates.join(path.replace('.', "/")).with_extension("antt");
                fs::read_to_string(&file).map_err(|error| format!("{}: {error}", file.display()))?
            }
            _ => String::new(),
        };
        let declared = text.lines().filter_map(|line| {
            let (name, _) = line.strip_prefix("unfoldable pub ")?.split_once(" : ")?;
            Some(name)
        });
        let computed = self.computed.split_whitespace().chain(declared);
        Ok(computed.map(str::to_string).collect())
    }

    fn import(&self, computed: &[String]) -> String {
        let named = self.named.split_whitespace();
        let names: Vec<&str> = named.chain(computed.iter().map(String::as_str)).collect();
        match names[..] {
            [] => format!("use {}\n", self.path),
            _ => format!("use {}.{{{}}}\n", self.path, names.join(", ")),
        }
    }
}

/// What more than one operation goes through.
const SHARED: &[Module] = &[
    Module::library(
        "Rattle.std.specs.Prelude",
        "◌≡◌ refl ℕ true false List [] ◌∷◌",
        "",
    ),
    Module::new(
        "Rattle.value.specs.declared.States.TheVariants",
        "Two Four Nine",
    ),
    Module::new("Rattle.value.specs.Digits", ""),
    Module::new("Rattle.value.specs.Slice", ""),
    Module::new("Rattle.value.specs.Level", ""),
    Module::new("Rattle.layout.specs.Entry", ""),
    Module::new(
        "Rattle.fst.specs.declared.Encoding.TheVariants",
        "Event Real BitVector",
    ),
    Module::new("Rattle.fst.specs.declared.Description", "Description"),
    Module::new("Rattle.fst.specs.Refusal", "Reply refused given Outcome"),
    Module::new("Rattle.fst.specs.Record", "Recorder"),
    Module::new("Rattle.signal.specs.Decode", ""),
];

/// The imports of all equations, and the names of what is computed.
fn preamble(crates: &Path) -> Result<(String, String), String> {
    let own = OPERATIONS
        .iter()
        .flat_map(|operation| operation.definitions);
    let (mut imports, mut all) = (String::new(), Vec::new());
    for module in SHARED.iter().chain(own) {
        let computed = module.computed(crates)?;
        imports += &module.import(&computed);
        all.extend(computed);
    }
    Ok((imports, all.join(" ")))
}

/// A module with an equation for each stored answer that takes at most so many characters there, over the definitions of
/// these crates.
pub fn module(text: &str, longest: usize, crates: &Path) -> Result<(String, usize), String> {
    let (imports, computed) = preamble(crates)?;
    let mut out =
        format!("-- The definitions compute the stored answers.\n-- Assumes nothing.\n{imports}");
    let mut equations = 0;
    for (number, line) in text.lines().enumerate() {
        if line.starts_with('#') || line.len() > longest {
            continue;
        }
        let (case, _) = super::read(line)?;
        if let Some(equation) = case.equation() {
            let name = format!("line{}", number + 1);
            out += &format!("\n{name} : {equation}\nunfolding {computed}\n{name} = refl\n");
            equations += 1;
        }
    }
    Ok((out, equations))
}
