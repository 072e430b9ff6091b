//! Stand-in: a value made at its first use.
use std::ops::Deref;
use std::sync::OnceLock;

pub struct LazyStatic<T>(OnceLock<T>);

impl<T> LazyStatic<T> {
    pub const fn new() -> LazyStatic<T> {
        LazyStatic(OnceLock::new())
    }
    pub fn prep<F: FnOnce() -> T>(&self, make: F) {
        self.0.get_or_init(make);
    }
}

impl<T> Deref for LazyStatic<T> {
    type Target = T;
    fn deref(&self) -> &T {
        self.0.get().expect("made before its use")
    }
}
