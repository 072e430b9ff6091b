//! Stand-in: nothing waits.
pub fn msleep(_milliseconds: u64) {}

pub fn block_on(_future: ()) {}
