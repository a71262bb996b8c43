//! Finds the archive `libyoksimert.a` and has it linked (`cfg(archive)`). Where there is none to link, `src/lib.rs` stops the build with
//! the sentence that it is handed; this script doesn't, as the documentation needs no archive.

use std::env;
use std::path::{Path, PathBuf};
use std::slice;

const ARCHIVE: &str = "libyoksimert.a";
const VARIABLE: &str = "YOKSIMERT_LIB_DIR";
/// Looked at where the variable isn't set: where `./staticlib yoksimert` writes in the repository, and the folder of a package.
const OWN: [&str; 2] = ["../../target/staticlib", "../../lib"];

fn main() {
    println!("cargo::rustc-check-cfg=cfg(archive)");
    println!("cargo::rerun-if-env-changed={VARIABLE}");
    match right_target().and_then(|()| folder()) {
        Ok(folder) => {
            println!("cargo::rustc-link-search=native={}", folder.display());
            println!("cargo::rustc-link-lib=static=yoksimert");
            println!("cargo::rustc-cfg=archive");
        }
        Err(sentence) => println!("cargo::rustc-env=YOKSIMERT_STOP={sentence}"),
    }
    // Their programs are doctests of the crate, where it stands beside them.
    println!("cargo::rustc-check-cfg=cfg(documents)");
    if from_here("../../docs/FROM-WELLEN.md").is_file() {
        println!("cargo::rustc-cfg=documents");
    }
}

fn cargos(name: &str) -> String {
    env::var(name).unwrap_or_else(|error| panic!("cargo sets {name}: {error}"))
}

fn from_here(path: &str) -> PathBuf {
    Path::new(&cargos("CARGO_MANIFEST_DIR")).join(path)
}

fn right_target() -> Result<(), String> {
    let target =
        ["ARCH", "POINTER_WIDTH", "OS"].map(|name| cargos(&format!("CARGO_CFG_TARGET_{name}")));
    if target == ["x86_64", "64", "linux"] {
        return Ok(());
    }
    let target = cargos("TARGET");
    Err(format!(
        "{ARCHIVE} is for x86-64 Linux alone, and this build is for {target}"
    ))
}

/// The folder of the archive, or why there is none.
fn folder() -> Result<PathBuf, String> {
    let named = env::var_os(VARIABLE).map(PathBuf::from);
    let folders = match &named {
        Some(folder) => vec![folder.clone()],
        None => OWN.map(from_here).to_vec(),
    };
    let has_archive = |folder: &&PathBuf| folder.is_absolute() && folder.join(ARCHIVE).is_file();
    let found = folders.iter().find(has_archive);
    // cargo runs the script at each build while a watched file isn't there, so the others are not watched once one is found.
    watch(found.map_or(&folders, slice::from_ref));
    found.cloned().ok_or_else(|| match named {
        Some(folder) => format!(
            "{VARIABLE} is `{}`, which is not the absolute path of a folder that holds {ARCHIVE}",
            folder.display()
        ),
        None => format!(
            "no {ARCHIVE}: run `./staticlib yoksimert` in yoksimert's repository, or set {VARIABLE} to the folder of a built one"
        ),
    })
}

fn watch(folders: &[PathBuf]) {
    for folder in folders {
        // The folder too: an archive that comes back as old as it was alters the folder alone.
        println!("cargo::rerun-if-changed={}", folder.display());
        println!("cargo::rerun-if-changed={}", folder.join(ARCHIVE).display());
    }
}
