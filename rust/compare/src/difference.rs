//! A comparison panics where it finds a difference; here the panic is caught, and nothing is printed.

use crate::trace;
use std::cell::{Cell, RefCell};
use std::panic::{self, AssertUnwindSafe};
use std::sync::Once;

/// What was found, where in the sources, and the case in short.
#[derive(Clone, Debug)]
pub struct Difference {
    pub what: String,
    pub at: String,
    pub case: Vec<String>,
}

thread_local! {
    static CATCHING: Cell<bool> = const { Cell::new(false) };
    static FOUND: RefCell<Option<(String, String)>> = const { RefCell::new(None) };
}

/// The first difference that a comparison finds, if any.
pub fn first(comparison: impl FnOnce()) -> Option<Difference> {
    keep_panics();
    trace::take();
    CATCHING.with(|catching| catching.set(true));
    let done = panic::catch_unwind(AssertUnwindSafe(comparison));
    CATCHING.with(|catching| catching.set(false));
    let (what, at) = FOUND.with(|found| found.take()).filter(|_| done.is_err())?;
    Some(Difference { what, at, case: trace::take() })
}

/// From now on a panic is kept in `FOUND` while its thread is catching, else told as usual.
fn keep_panics() {
    static ONCE: Once = Once::new();
    ONCE.call_once(|| {
        let usual = panic::take_hook();
        panic::set_hook(Box::new(move |info| {
            if !CATCHING.with(Cell::get) {
                return usual(info);
            }
            let payload = info.payload();
            let said = payload.downcast_ref::<String>().map(String::as_str);
            let what = said.or_else(|| payload.downcast_ref::<&str>().copied()).unwrap_or("a panic");
            let at = info.location().map_or(String::new(), |at| format!("{}:{}", at.file(), at.line()));
            FOUND.with(|found| found.replace(Some((what.to_string(), at))));
        }));
    });
}
