//! The package's crate: built, run and documented, and the sentences that stop a build.

use crate::folder::{Outside, accepted, files, refused};
use std::fs;
use std::path::Path;
use std::process::Command;

const SERVICE: &str = include_str!("programs/service.rs");
const OUTPUT: &str =
    "7: 0001\nrefused: the time index is below the last one kept (refusal 6)\n0: zz\n7: 01\n";
const NO_ARCHIVE: &str = "error: no libyoksimert.a: run `./staticlib yoksimert` in yoksimert's repository, or set YOKSIMERT_LIB_DIR to the folder of a built one\n";

#[test]
fn a_service_runs_by_the_package_and_by_the_variable() {
    let outside = Outside::packaged("service");
    outside.add_program("service", SERVICE);
    assert_eq!(accepted(&mut outside.cargo("service", &["run"])), OUTPUT);
    outside.rename("dist/lib", "elsewhere");
    let mut by_variable = outside.cargo("service", &["run"]);
    by_variable.env("YOKSIMERT_LIB_DIR", outside.path("elsewhere"));
    assert_eq!(accepted(&mut by_variable), OUTPUT);
}

/// The crate by itself: its manifest names nothing, and its doctests need nothing, that isn't in it.
#[test]
fn the_crate_stands_alone() {
    let outside = Outside::packaged("alone");
    outside.rename("dist/rust/yoksimert", "alone");
    let mut test = outside.cargo("alone", &["test"]);
    let said = accepted(test.env("YOKSIMERT_LIB_DIR", outside.path("dist/lib")));
    assert!(said.contains("test result: ok"), "{said}");
}

/// The sentence comes first, and nothing but cargo's last word behind it.
fn assert_stopped(said: &str, sentence: &str) {
    assert!(said.starts_with(sentence), "{said}");
    let errors = said.lines().filter(|line| line.starts_with("error"));
    assert_eq!(errors.count(), 2, "{said}");
    assert!(!said.contains("warning"), "{said}");
}

#[test]
fn a_build_without_the_archive_stops_with_a_sentence() {
    let outside = Outside::packaged("stopped");
    outside.add_program("service", SERVICE);
    let empty = outside.make_folder("empty");
    for folder in [empty.as_path(), Path::new("../../lib"), Path::new("")] {
        let mut build = outside.cargo("service", &["build"]);
        let said = refused(build.env("YOKSIMERT_LIB_DIR", folder));
        let sentence = format!(
            "error: YOKSIMERT_LIB_DIR is `{}`, which is not the absolute path of a folder that holds libyoksimert.a\n",
            folder.display()
        );
        assert_stopped(&said, &sentence);
    }
    outside.rename("dist/lib", "elsewhere");
    let said = refused(&mut outside.cargo("service", &["build"]));
    assert_stopped(&said, NO_ARCHIVE);
    outside.rename("elsewhere", "dist/lib");
    assert_eq!(accepted(&mut outside.cargo("service", &["run"])), OUTPUT);
}

/// The names of the pages, and so of the items.
fn pages(outside: &Outside) -> Vec<String> {
    let mut doc = outside.cargo("dist/rust/yoksimert", &["doc", "--no-deps"]);
    accepted(doc.env("RUSTDOCFLAGS", "-D warnings"));
    let pages = files(&outside.path("target/doc/yoksimert"));
    fs::remove_dir_all(outside.path("target/doc")).expect("the pages are there");
    pages
}

#[test]
fn the_documentation_needs_no_archive() {
    let outside = Outside::packaged("documented");
    let with_archive = pages(&outside);
    for page in ["struct.Signal.html", "raw/fn.version.html"] {
        assert!(with_archive.iter().any(|name| name == page), "{page}");
    }
    outside.rename("dist/lib", "elsewhere");
    assert_eq!(pages(&outside), with_archive);
}

/// What the build script tells cargo for a target.
fn script(outside: &Outside, target: &str, numbers: [&str; 3]) -> String {
    let [arch, width, os] = numbers;
    let mut script = Command::new(outside.path("script"));
    script
        .env_clear()
        .env("CARGO_MANIFEST_DIR", outside.path("dist/rust/yoksimert"))
        .env("TARGET", target)
        .env("CARGO_CFG_TARGET_ARCH", arch)
        .env("CARGO_CFG_TARGET_POINTER_WIDTH", width)
        .env("CARGO_CFG_TARGET_OS", os);
    accepted(&mut script)
}

/// By the build script alone: the libraries of other targets aren't at hand.
#[test]
fn another_target_stops_with_a_sentence() {
    let outside = Outside::packaged("target");
    let source = outside.path("dist/rust/yoksimert/build.rs");
    let mut compile = Command::new("rustc");
    compile.args(["--edition", "2024", "-o"]);
    accepted(compile.arg(outside.path("script")).arg(source));

    let linux = script(
        &outside,
        "x86_64-unknown-linux-gnu",
        ["x86_64", "64", "linux"],
    );
    assert!(linux.contains("cargo::rustc-cfg=archive\n"), "{linux}");
    for (target, numbers) in [
        ("aarch64-unknown-linux-gnu", ["aarch64", "64", "linux"]),
        ("x86_64-unknown-linux-gnux32", ["x86_64", "32", "linux"]),
        ("x86_64-apple-darwin", ["x86_64", "64", "macos"]),
    ] {
        let said = script(&outside, target, numbers);
        let sentence = format!(
            "cargo::rustc-env=YOKSIMERT_STOP=libyoksimert.a is for x86-64 Linux alone, and this build is for {target}\n"
        );
        assert!(said.contains(&sentence), "{said}");
        assert!(!said.contains("rustc-cfg=archive"), "{said}");
    }
}
