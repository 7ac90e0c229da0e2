//! Panics: those of the independent implementation are caught and kept in words.

use std::cell::{Cell, RefCell};
use std::panic::{catch_unwind, set_hook, take_hook, AssertUnwindSafe};

thread_local! {
    static CATCHING: Cell<bool> = const { Cell::new(false) };
    static CAUGHT: RefCell<String> = const { RefCell::new(String::new()) };
    /// The case under way, for the message of a panic that is not caught.
    static CASE: Cell<u64> = const { Cell::new(0) };
}

/// Prints nothing of a panic that is caught, and of any other also how it is repeated.
pub fn watch(seed: u64) {
    let usual = take_hook();
    set_hook(Box::new(move |panic| {
        if CATCHING.get() {
            CAUGHT.set(panic.to_string().replace('\n', " "));
        } else {
            eprintln!("panic in --seed {seed} --case {}", CASE.get());
            usual(panic);
        }
    }));
}

pub fn case_under_way(number: u64) {
    CASE.set(number);
}

/// What the call gives, or the words of its panic.
pub fn caught<T>(call: impl FnOnce() -> T) -> Result<T, String> {
    CATCHING.set(true);
    let given = catch_unwind(AssertUnwindSafe(call));
    CATCHING.set(false);
    given.map_err(|_| CAUGHT.take())
}
