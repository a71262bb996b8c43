//! A service in C, by the package's flags.

use crate::folder::{Outside, accepted};
use std::collections::BTreeMap;
use std::fs;
use std::io::{Write, stderr};
use std::path::Path;
use std::process::Command;

const OUTPUT: &str = "7: 0001\nrefused: 6\n";

/// A field of a pkg-config file, with its variables in place; `${pcfiledir}` is the file's folder.
fn field(file: &Path, name: &str) -> String {
    let text = fs::read_to_string(file).expect("the file is there");
    let folder = file.parent().expect("a folder").to_string_lossy();
    let mut variables = BTreeMap::from([("pcfiledir", folder.into_owned())]);
    let expanded = |text: &str, variables: &BTreeMap<&str, String>| {
        let mut out = text.to_string();
        for (name, value) in variables {
            out = out.replace(&format!("${{{name}}}"), value);
        }
        out
    };
    for line in text.lines() {
        if let Some(value) = line.strip_prefix(&format!("{name}: ")) {
            return expanded(value, &variables);
        }
        if let Some((name, value)) = line.split_once('=') {
            let value = expanded(value, &variables);
            variables.insert(name, value);
        }
    }
    panic!("{} has no {name}", file.display());
}

/// What pkg-config tells, if it is on this machine.
fn by_pkg_config(outside: &Outside) -> Option<String> {
    let folder = outside.path("dist/lib/pkgconfig");
    let mut command = Command::new("pkg-config");
    command
        .args(["--static", "--cflags", "--libs", "yoksimert"])
        .env("PKG_CONFIG_PATH", folder);
    if command.output().is_ok() {
        return Some(accepted(&mut command));
    }
    let missing = "pkg-config is not on this machine: its file is read by the test alone";
    writeln!(stderr(), "\n*** {missing} ***").expect("stderr is open");
    None
}

/// Compiled and run with these flags.
fn run(outside: &Outside, flags: &str) -> String {
    let source = Path::new(env!("CARGO_MANIFEST_DIR")).join("tests/outside/programs/service.c");
    let program = outside.path("service");
    let mut compile = Command::new("cc");
    compile
        .args(["-std=c99", "-Wall", "-Wextra", "-Werror", "-pedantic", "-o"])
        .arg(&program)
        .arg(source)
        .args(flags.split_whitespace());
    accepted(&mut compile);
    accepted(&mut Command::new(program))
}

#[test]
fn a_program_runs_by_pkg_config() {
    let outside = Outside::packaged("c");
    let file = outside.path("dist/lib/pkgconfig/yoksimert.pc");
    let read = format!("{} {}", field(&file, "Cflags"), field(&file, "Libs"));
    assert_eq!(run(&outside, &read), OUTPUT);
    if let Some(told) = by_pkg_config(&outside) {
        assert_eq!(run(&outside, &told), OUTPUT);
    }
}
