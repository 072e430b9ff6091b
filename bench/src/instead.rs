//! Our library with some calls done in another way.
use crate::call::{Call, Reply, Side, State};
use crate::ours::Ours;

/// The function does a call, or leaves it to our library.
pub struct Instead<F> {
    ours: Ours,
    done: F,
}

impl<F: FnMut(&mut Ours, &Call) -> Option<Reply>> Instead<F> {
    pub fn new(ours: Ours, done: F) -> Instead<F> {
        Instead { ours, done }
    }
}

impl<F: FnMut(&mut Ours, &Call) -> Option<Reply>> Side for Instead<F> {
    fn call(&mut self, call: &Call) -> Reply {
        match (self.done)(&mut self.ours, call) {
            Some(reply) => reply,
            None => self.ours.call(call),
        }
    }

    fn is_screen(&self, like: &dyn Fn(&[u32]) -> bool) -> bool {
        self.ours.is_screen(like)
    }

    fn state(&mut self) -> State {
        self.ours.state()
    }
}
