//! Stand-in: "`RingBuf::new(16)` holds 16 events, first in first out, and drops the newcomer when full".
use core::sync::atomic::{AtomicUsize, Ordering};
use std::collections::VecDeque;
use sync::mutex::Mutex;

static DROPPED: AtomicUsize = AtomicUsize::new(0);

/// How many newcomers full buffers have dropped.
pub fn dropped() -> usize {
    DROPPED.load(Ordering::Relaxed)
}

pub struct RingBuf<T> {
    held: VecDeque<T>,
    room: usize,
}

impl<T> RingBuf<T> {
    pub fn new(room: usize) -> RingBuf<T> {
        RingBuf { held: VecDeque::with_capacity(room), room: room }
    }
    pub fn push_back(&mut self, value: T) -> Result<(), T> {
        if self.held.len() == self.room {
            DROPPED.fetch_add(1, Ordering::Relaxed);
            return Err(value);
        }
        self.held.push_back(value);
        Ok(())
    }
    pub fn pop_front(&mut self) -> Option<T> {
        self.held.pop_front()
    }
    pub fn is_empty(&self) -> bool {
        self.held.is_empty()
    }
}

/// The same behind a lock.
pub struct AtomicRingBuf<T>(Mutex<RingBuf<T>>);

impl<T> AtomicRingBuf<T> {
    pub fn new(room: usize) -> AtomicRingBuf<T> {
        AtomicRingBuf(Mutex::new(RingBuf::new(room)))
    }
    pub fn push(&self, value: T) -> Result<(), T> {
        self.0.lock().push_back(value)
    }
    pub fn pop(&self) -> Option<T> {
        self.0.lock().pop_front()
    }
}
