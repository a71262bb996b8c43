//! Of the build scripts: whether wellen's source was there when the reference was built.

/// `cfg(wellen)`: the crate `reference` hands this variable to the build scripts of its dependents.
pub fn wellen() {
    println!("cargo::rustc-check-cfg=cfg(wellen)");
    println!("cargo::rerun-if-env-changed=DEP_WELLEN_PRESENT");
    if std::env::var_os("DEP_WELLEN_PRESENT").is_some() {
        println!("cargo::rustc-cfg=wellen");
    }
}
