//! An archive of another version: no program links with it, whatever it calls.

use crate::folder::{Outside, accepted, refused};
use std::path::Path;
use std::process::Command;
use yoksimert::VERSION;

fn function(version: u32) -> String {
    format!("yoksimert_version_{version}")
}

/// A package, and in `next` its archive with the next version.
fn with_next_version(name: &str) -> Outside {
    let outside = Outside::packaged(name);
    let renamed = format!("{}={}", function(VERSION), function(VERSION + 1));
    let mut objcopy = Command::new("objcopy");
    objcopy.args(["--redefine-sym", &renamed]);
    objcopy.arg(outside.path("dist/lib/libyoksimert.a"));
    accepted(objcopy.arg(outside.make_folder("next").join("libyoksimert.a")));
    outside
}

#[test]
fn another_version_does_not_link_from_rust() {
    let outside = with_next_version("version-rust");
    outside.add_program("idle", include_str!("programs/idle.rs"));
    for words in [&["build"][..], &["build", "--release"]] {
        accepted(&mut outside.cargo("idle", words));
        let mut build = outside.cargo("idle", words);
        let said = refused(build.env("YOKSIMERT_LIB_DIR", outside.path("next")));
        assert!(said.contains(&function(VERSION)), "{said}");
    }
}

/// As C or C++, and where the linker drops what isn't used.
const FLAGS: [&[&str]; 3] = [
    &["-xc", "-std=c99"],
    &["-xc++", "-std=c++11"],
    &[
        "-xc",
        "-O2",
        "-ffunction-sections",
        "-fdata-sections",
        "-Wl,--gc-sections",
    ],
];

fn link(outside: &Outside, flags: &[&str], archive: &Path) -> Command {
    let program = Path::new(env!("CARGO_MANIFEST_DIR")).join("tests/outside/programs/idle.c");
    let mut command = Command::new("cc");
    command
        .args(["-Wall", "-Wextra", "-Werror", "-pedantic"])
        .args(flags)
        .arg("-I")
        .arg(outside.path("dist/include"))
        .arg(program)
        .args(["-xnone".as_ref(), archive])
        .arg("-o")
        .arg(outside.path("idle"));
    command
}

#[test]
fn another_version_does_not_link_from_c() {
    let outside = with_next_version("version-c");
    for flags in FLAGS {
        let archives = ["dist/lib", "next"].map(|folder| outside.path(folder));
        let [ours, next] = archives.map(|folder| folder.join("libyoksimert.a"));
        accepted(&mut link(&outside, flags, &ours));
        let said = refused(&mut link(&outside, flags, &next));
        assert!(said.contains(&function(VERSION)), "{flags:?}: {said}");
    }
}
