//! Asks the customer's Rust, with a panic as one of the answers.

use std::any::Any;
use std::cell::Cell;
use std::panic::{self, AssertUnwindSafe};

thread_local! {
    static ASKED: Cell<bool> = const { Cell::new(false) };
}

/// Has the panics inside of `ask` print nothing. All others print as before.
pub fn silence_panics() {
    let print = panic::take_hook();
    panic::set_hook(Box::new(move |panic| {
        if !ASKED.get() {
            print(panic);
        }
    }));
}

/// The answer, or the words of the panic.
pub fn ask<A>(question: impl FnOnce() -> A) -> Result<A, String> {
    ASKED.set(true);
    let answer = panic::catch_unwind(AssertUnwindSafe(question));
    ASKED.set(false);
    answer.map_err(words)
}

fn words(panic: Box<dyn Any + Send>) -> String {
    match panic.downcast::<String>() {
        Ok(words) => *words,
        Err(other) => other.downcast_ref::<&str>().copied().unwrap_or_default().to_string(),
    }
}
