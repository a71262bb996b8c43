//! A program in C that includes the header, is linked with the archive, and runs; the header is C of 1999 and C++ of 2011.

use std::path::Path;
use std::process::Command;

const EXPECTED: &str = "\
3: 61
4: 40 21 84 31
8: 0 0 0 0 6, 2 entries at 5 7
9: start 1, 2, unequal, next 9
12: 41 01
text: 0 1, compared: 0 equal
w1: unsigned 0 1, signed 0 -1, decimal 16 0
w12: unsigned 0 837, signed 0 837, decimal 0 345
w64: unsigned 0 18446744073709551615, signed 0 -1, decimal 18 0
w64: unsigned 0 9223372036854775808, signed 0 -9223372036854775808, decimal 0 8000000000000000
w64: unsigned 0 9223372036854775807, signed 0 9223372036854775807, decimal 18 0
w64: unsigned 0 11068046444225730969, signed 0 -7378697629483820647, decimal 0 9999999999999999
w65: unsigned 16 0, signed 16 0, decimal 16 0
w2: unsigned 17 0, signed 17 0, decimal 16 0
w4: unsigned 17 0, signed 17 0, decimal 17 0
w4: unsigned 0 10, signed 0 -6, decimal 18 0
equal: start 0, 70000
searched: start 0, 70000
";

const STRICT: [&str; 4] = ["-Wall", "-Wextra", "-Werror", "-pedantic"];

#[test]
fn rows_from_c() {
    let here = Path::new(env!("CARGO_MANIFEST_DIR"));
    let program = Path::new(env!("CARGO_TARGET_TMPDIR")).join("rows");
    let compiled = Command::new("cc")
        .args(STRICT)
        .args(["-std=c11", "-I"])
        .arg(here.join("../../include"))
        .arg(here.join("tests/rows.c"))
        .arg(here.join("../../target/staticlib/libyoksimert.a"))
        .arg("-o")
        .arg(&program)
        .output()
        .expect("cc, which links every Rust program, is there");
    let said = String::from_utf8_lossy(&compiled.stderr);
    assert!(compiled.status.success(), "{said}");
    let ran = Command::new(&program).output().expect("the program runs");
    assert!(ran.status.success());
    assert_eq!(String::from_utf8_lossy(&ran.stdout), EXPECTED);
}

#[test]
fn the_header_is_plain() {
    let header = Path::new(env!("CARGO_MANIFEST_DIR")).join("../../include/yoksimert.h");
    for (language, standard) in [("c", "-std=c99"), ("c++", "-std=c++11")] {
        let compiled = Command::new("cc")
            .args(STRICT)
            .args([standard, "-fsyntax-only", "-x", language])
            .arg(&header)
            .output()
            .expect("cc, which links every Rust program, is there");
        let said = String::from_utf8_lossy(&compiled.stderr);
        assert!(compiled.status.success(), "{standard}: {said}");
    }
}
