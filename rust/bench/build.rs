//! `cfg(wellen)`: whether the reference was built with wellen's source. `cfg(inner)`: whether the archive
//! `libbench.a` was there.

#[path = "../present.rs"]
mod present;

use std::path::Path;

fn main() {
    present::wellen();
    println!("cargo::rustc-check-cfg=cfg(inner)");
    let here = std::env::var("CARGO_MANIFEST_DIR").expect("cargo sets CARGO_MANIFEST_DIR");
    let folder = Path::new(&here).join("../../target/staticlib");
    let archive = folder.join("libbench.a");
    // The folder too: an archive that comes back as old as it was alters the folder alone.
    println!("cargo::rerun-if-changed={}", folder.display());
    println!("cargo::rerun-if-changed={}", archive.display());
    if archive.is_file() {
        println!("cargo::rustc-cfg=inner");
        println!("cargo::rustc-link-search=native={}", folder.display());
        println!("cargo::rustc-link-lib=static=bench");
    }
}
