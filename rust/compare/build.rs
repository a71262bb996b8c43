//! `cfg(wellen)`: whether the reference was built with wellen's source.

#[path = "../present.rs"]
mod present;

fn main() {
    present::wellen();
}
