//! The version of the archive's interface.

// SAFETY: declared as in the header and in the Rattle source, to which tests/declarations.rs holds it. It takes nothing.
unsafe extern "C" {
    safe fn yoksimert_version_1() -> u32;
}

/// An archive of another version has no function by this name, so that no program with this crate links with it, whatever it calls. The
/// linker may drop a static that nothing reads, and then it no longer looks for what that names; but none of this section, which lists the
/// functions that are called before `main`. There this one answers to nobody.
#[cfg(archive)]
#[used]
// SAFETY: what a function of this section is handed is in registers, which this one doesn't look at.
#[unsafe(link_section = ".init_array")]
static LINKED: extern "C" fn() -> u32 = yoksimert_version_1;

/// The version that the archive answers: [`VERSION`](crate::VERSION), as one that answers another doesn't link.
#[inline]
#[must_use]
pub fn version() -> u32 {
    yoksimert_version_1()
}
