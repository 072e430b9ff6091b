//! Stand-ins for the kernel's locks. Nothing runs beside anything here; a lock that a panic left behind is taken all the same.
use std::sync::PoisonError;

pub mod mutex {
    use super::PoisonError;
    use std::sync;

    pub type HeldMutex<'a, T> = sync::MutexGuard<'a, T>;

    #[derive(Default)]
    pub struct Mutex<T>(sync::Mutex<T>);

    impl<T> Mutex<T> {
        pub const fn new(value: T) -> Mutex<T> {
            Mutex(sync::Mutex::new(value))
        }
        pub fn lock(&self) -> HeldMutex<'_, T> {
            self.0.lock().unwrap_or_else(PoisonError::into_inner)
        }
    }

    /// Holds a value made at its first use.
    pub struct LazyMutex<T>(sync::OnceLock<Mutex<T>>);

    impl<T> LazyMutex<T> {
        pub const fn new() -> LazyMutex<T> {
            LazyMutex(sync::OnceLock::new())
        }
        pub fn init<F: FnOnce() -> T>(&self, make: F) {
            self.0.get_or_init(|| Mutex::new(make()));
        }
        pub fn lock(&self) -> HeldMutex<'_, T> {
            self.0.get().expect("made before its use").lock()
        }
    }
}

pub mod rwlock {
    use super::PoisonError;
    use std::sync;

    #[derive(Default)]
    pub struct RwLock<T>(sync::RwLock<T>);

    impl<T> RwLock<T> {
        pub fn read(&self) -> sync::RwLockReadGuard<'_, T> {
            self.0.read().unwrap_or_else(PoisonError::into_inner)
        }
        pub fn write(&self) -> sync::RwLockWriteGuard<'_, T> {
            self.0.write().unwrap_or_else(PoisonError::into_inner)
        }
    }
}

/// A signal that nobody waits for.
pub struct EventChannel;

impl EventChannel {
    pub const fn new() -> EventChannel {
        EventChannel
    }
    pub fn post(&self) {}
    pub fn sleep(&self) {}
}
