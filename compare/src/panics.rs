//! Panics of the original, caught and told in one line.
use std::cell::RefCell;
use std::panic::{catch_unwind, set_hook, AssertUnwindSafe, PanicHookInfo};

thread_local! {
    static LAST: RefCell<String> = const { RefCell::new(String::new()) };
}

/// From here on panics are kept instead of printed.
pub fn keep() {
    set_hook(Box::new(|info| LAST.with(|last| *last.borrow_mut() = told(info))));
}

pub fn caught<T>(call: impl FnOnce() -> T) -> Result<T, String> {
    catch_unwind(AssertUnwindSafe(call)).map_err(|_| LAST.with(|last| last.borrow().clone()))
}

/// The place is told with the file's folder, since the original has two files `mod.rs`.
fn told(info: &PanicHookInfo) -> String {
    let message = info.payload_as_str().unwrap_or("").replace('\n', " ");
    let place = info.location().map_or(String::new(), |at| {
        let parts: Vec<&str> = at.file().split('/').collect();
        let file = parts[parts.len().saturating_sub(2)..].join("/");
        format!(" at {file}:{}", at.line())
    });
    format!("panic{place}: {message}")
}
