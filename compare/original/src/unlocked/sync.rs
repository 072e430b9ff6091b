//! Stand-ins for the kernel's locks that are plain cells: whoever asks gets the value. Nothing runs beside anything
//! here, and nobody asks for what is held: where one did, the build with locks would stand still.

pub mod mutex {
    use std::cell::{OnceCell, UnsafeCell};

    pub type HeldMutex<'a, T> = &'a mut T;

    #[derive(Default)]
    pub struct Mutex<T>(UnsafeCell<T>);

    // SAFETY: there is one thread; here and in the next.
    unsafe impl<T> Sync for Mutex<T> {}
    unsafe impl<T> Sync for LazyMutex<T> {}

    impl<T> Mutex<T> {
        pub const fn new(value: T) -> Mutex<T> {
            Mutex(UnsafeCell::new(value))
        }
        pub fn lock(&self) -> HeldMutex<'_, T> {
            // SAFETY: nobody else holds it.
            unsafe { &mut *self.0.get() }
        }
    }

    /// Holds a value made at its first use.
    pub struct LazyMutex<T>(OnceCell<Mutex<T>>);

    impl<T> LazyMutex<T> {
        pub const fn new() -> LazyMutex<T> {
            LazyMutex(OnceCell::new())
        }
        pub fn init<F: FnOnce() -> T>(&self, make: F) {
            self.0.get_or_init(|| Mutex::new(make()));
        }
        pub fn lock(&self) -> HeldMutex<'_, T> {
            self.0.get().expect("made before its use").lock()
        }
    }
}

pub mod rwlock {
    use std::cell::UnsafeCell;

    #[derive(Default)]
    pub struct RwLock<T>(UnsafeCell<T>);

    impl<T> RwLock<T> {
        pub fn read(&self) -> &T {
            // SAFETY: nobody holds it to write.
            unsafe { &*self.0.get() }
        }
        pub fn write(&self) -> &mut T {
            // SAFETY: nobody else holds it.
            unsafe { &mut *self.0.get() }
        }
    }
}

/// A signal that nobody waits for.
pub struct EventChannel;

impl EventChannel {
    pub const fn new() -> EventChannel {
        EventChannel
    }
    pub fn post(&self) {}
    pub fn sleep(&self) {}
}
