//! Panics that are looked for.
use std::cell::Cell;
use std::panic::{AssertUnwindSafe, catch_unwind, set_hook, take_hook};
use std::sync::Once;

thread_local!(static CATCHING: Cell<bool> = const { Cell::new(false) });

/// What a function gives, or none where it panics. Such a panic is not told.
pub fn caught<T>(function: impl FnOnce() -> T) -> Option<T> {
    static QUIET: Once = Once::new();
    QUIET.call_once(tell_others_only);
    CATCHING.set(true);
    let given = catch_unwind(AssertUnwindSafe(function)).ok();
    CATCHING.set(false);
    given
}

/// From now on panics are told as before, but for those that are looked for.
fn tell_others_only() {
    let tell = take_hook();
    set_hook(Box::new(move |panic| {
        if !CATCHING.get() {
            tell(panic);
        }
    }));
}
