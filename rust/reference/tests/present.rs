//! That wellen's source is taken where it is there: without it the other tests are left out.

use std::path::{Path, PathBuf};

#[test]
fn the_source_is_taken_if_it_is_there() {
    let beside = Path::new(env!("CARGO_MANIFEST_DIR")).join("../../../shared/docs/src");
    let folder = std::env::var_os("WELLEN_SRC").map_or(beside, PathBuf::from);
    let there = folder.join("src/fst.rs").is_file();
    assert_eq!(reference::PRESENT, there, "touch rust/reference/build.rs");
}
