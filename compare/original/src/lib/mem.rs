//! Stand-ins: counted references.
#[cfg(feature = "unlocked")]
pub use std::rc::Rc as Arc;
#[cfg(not(feature = "unlocked"))]
pub use std::sync::Arc;

pub mod aref {
    pub use super::Arc as ArefBorrow;
    use std::ops::Deref;

    /// An owner that lends its value.
    pub struct Aref<T>(ArefBorrow<T>);

    impl<T> Aref<T> {
        pub fn new(value: T) -> Aref<T> {
            Aref(ArefBorrow::new(value))
        }
        pub fn borrow(&self) -> ArefBorrow<T> {
            self.0.clone()
        }
    }

    impl<T> Deref for Aref<T> {
        type Target = T;
        fn deref(&self) -> &T {
            &self.0
        }
    }
}
