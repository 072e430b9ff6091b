//! Stand-in: nobody waits for events. The queue counts how often it was woken, since a window wakes it for each event that it takes.
use core::sync::atomic::{AtomicUsize, Ordering};
use threads::SleepObject;

static WOKEN: AtomicUsize = AtomicUsize::new(0);

/// How often a window has woken those who wait for its events.
pub fn woken() -> usize {
    WOKEN.load(Ordering::Relaxed)
}

#[derive(Default)]
pub struct Queue;

impl Queue {
    pub fn wake_one(&self) {
        WOKEN.fetch_add(1, Ordering::Relaxed);
    }
    pub fn wait_upon(&self, _object: &mut SleepObject) {}
    pub fn clear_wait(&self, _object: &mut SleepObject) {}
}
