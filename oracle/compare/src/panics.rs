//! Panics of the Rust, told apart from answers.

use std::panic::{catch_unwind, set_hook, take_hook, UnwindSafe};

/// What the call gives, or nothing if it panics, which is not shown.
pub fn unless_panic<T>(call: impl FnOnce() -> T + UnwindSafe) -> Option<T> {
    let hook = take_hook();
    set_hook(Box::new(|_| ()));
    let result = catch_unwind(call);
    set_hook(hook);
    result.ok()
}
