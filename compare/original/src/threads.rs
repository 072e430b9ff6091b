//! Stand-in: there are no threads.
pub struct WorkerThread;

impl WorkerThread {
    pub fn new<F: FnOnce()>(_name: &str, _body: F) -> WorkerThread {
        WorkerThread
    }
}

pub struct SleepObject;

impl SleepObject {
    pub fn signal(&mut self) {}
}
