//! The parts of `core` that the original names, with plain cells in place of what is changed atomically.
pub use std::{cell, cmp, fmt, iter, mem, ops};

pub mod sync {
    pub mod atomic {
        use std::cell::Cell;
        pub use std::sync::atomic::Ordering;

        pub struct Plain<T>(Cell<T>);
        pub type AtomicBool = Plain<bool>;
        pub type AtomicUsize = Plain<usize>;

        // SAFETY: there is one thread.
        unsafe impl<T> Sync for Plain<T> {}

        impl<T: Copy> Plain<T> {
            pub const fn new(value: T) -> Plain<T> {
                Plain(Cell::new(value))
            }
            pub fn load(&self, _order: Ordering) -> T {
                self.0.get()
            }
            pub fn store(&self, value: T, _order: Ordering) {
                self.0.set(value)
            }
            pub fn swap(&self, value: T, _order: Ordering) -> T {
                self.0.replace(value)
            }
        }

        impl Plain<usize> {
            pub fn fetch_add(&self, more: usize, _order: Ordering) -> usize {
                self.0.replace(self.0.get() + more)
            }
        }
    }
}
