//! The package itself.

use crate::folder::{Outside, accepted, files, package, refused};
use std::os::unix::fs::PermissionsExt;
use std::path::{Path, PathBuf};
use std::process::Command;
use std::{env, fs};

fn sums(package: &Path) -> String {
    fs::read_to_string(package.join("SHA256SUMS")).expect("the sums are there")
}

#[test]
fn the_sums_are_right_and_name_every_file() {
    let outside = Outside::packaged("sums");
    let dist = outside.path("dist");
    let check = ["--check", "--strict", "--quiet", "SHA256SUMS"];
    accepted(Command::new("sha256sum").args(check).current_dir(&dist));
    let sums = sums(&dist);
    let listed = sums.lines().map(|line| &line[66..]);
    let mut listed: Vec<_> = listed.map(str::to_string).collect();
    listed.push("SHA256SUMS".to_string());
    listed.sort();
    assert_eq!(listed, files(&dist));
    for file in [
        "LICENSE",
        "NOTICE",
        "README.md",
        "docs/FORMAT.md",
        "include/yoksimert.h",
        "lib/libyoksimert.a",
        "lib/pkgconfig/yoksimert.pc",
        "rust/yoksimert/Cargo.toml",
        "rust/yoksimert/LICENSE",
        "rust/yoksimert/src/lib.rs",
    ] {
        assert!(listed.iter().any(|path| path == file), "{file}");
    }
    fs::write(dist.join("LICENSE"), "another").expect("the file is written");
    refused(Command::new("sha256sum").args(check).current_dir(&dist));
}

#[test]
fn two_packages_are_equal() {
    let outside = Outside::packaged("equal");
    accepted(&mut package(&outside.path("again")));
    let [first, second] = ["dist", "again"].map(|name| sums(&outside.path(name)));
    assert_eq!(first, second);
}

#[test]
fn a_folder_that_is_there_is_left_alone() {
    let outside = Outside::empty("there");
    let there = outside.make_folder("there");
    let said = refused(&mut package(&there));
    assert!(said.ends_with("is there already\n"), "{said}");
    assert_eq!(files(&there), Vec::<String>::new());
}

/// What `./package` reads, but for the archive that the toolchain builds.
const READ: [&str; 8] = [
    "package",
    "staticlib",
    "LICENSE",
    "NOTICE",
    "docs",
    "include",
    "rust/Cargo.toml",
    "rust/yoksimert",
];
/// In place of the toolchain: it says that it would build, and is right or not.
const RT: &str = "#!/bin/sh\necho \"$@\" >asked\necho not proved >&2\n\
    [ \"$STATUS\" != 0 ] || { mkdir -p out && cp \"$BUILT\" out; }\nexit \"$STATUS\"\n";

fn root() -> PathBuf {
    Path::new(env!("CARGO_MANIFEST_DIR")).join("../..")
}

/// `./package` in a copy of the repository.
fn package_anew(outside: &Outside, status: &str) -> Command {
    let path = env::var("PATH").expect("a path");
    let mut command = Command::new(outside.path("package"));
    command
        .env("PATH", format!("{}:{path}", outside.path("bin").display()))
        .env("BUILT", root().join("target/staticlib/libyoksimert.a"))
        .env("STATUS", status);
    command
}

#[test]
fn the_archive_is_built_first() {
    let outside = Outside::empty("built");
    let mut copy = Command::new("cp");
    copy.args(["-r", "--parents"])
        .args(READ)
        .arg(outside.path(""));
    accepted(copy.current_dir(root()));
    let source = outside.make_folder("crates/yoksimert");
    let rt = outside.make_folder("bin").join("rt");
    fs::write(&rt, RT).expect("the script is written");
    fs::set_permissions(&rt, PermissionsExt::from_mode(0o755)).expect("it is ours");

    accepted(&mut package_anew(&outside, "0"));
    let asked = fs::read_to_string(source.join("asked"));
    assert_eq!(asked.expect("rt was called"), "lib\n");
    let old = outside.path("dist/old");
    fs::write(&old, "").expect("dist is there");
    let said = refused(&mut package_anew(&outside, "1"));
    assert!(said.ends_with("not proved\n"), "{said}");
    assert!(
        old.is_file(),
        "what was there is left where the build fails"
    );
    accepted(&mut package_anew(&outside, "0"));
    assert!(!old.exists(), "dist is written anew");
}
