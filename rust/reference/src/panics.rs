use crate::Refused;
use std::cell::Cell;
use std::panic::{self, AssertUnwindSafe};
use std::sync::Once;

thread_local! {
    static QUIET: Cell<bool> = const { Cell::new(false) };
}
static INSTALLED: Once = Once::new();

/// Runs `call`; a panic in it is a refusal and prints nothing. Panics elsewhere keep their message.
///
/// Whoever lends `call` something that it alters answers for its state after a refusal.
pub fn refusing<T>(call: impl FnOnce() -> T) -> Result<T, Refused> {
    INSTALLED.call_once(install_hook);
    let before = QUIET.replace(true);
    let outcome = panic::catch_unwind(AssertUnwindSafe(call));
    QUIET.set(before);
    outcome.map_err(|_| Refused)
}

fn install_hook() {
    let previous = panic::take_hook();
    panic::set_hook(Box::new(move |info| {
        if !QUIET.get() {
            previous(info);
        }
    }));
}
