//! The call on event times alone.
use crate::raw;
use crate::Error;

/// The greatest number of events in a second, and the place of the first event that begins such a second, from 0.
#[derive(Clone, Copy, Debug, PartialEq, Eq)]
pub struct Second {
    pub count: usize,
    pub place: usize,
}

/// The busiest second of a run of event times in milliseconds.
#[inline]
pub fn busiest(times: &[u32]) -> Result<Second, Error> {
    // SAFETY: pointer and length are those of one slice, which is only read.
    let second = unsafe { raw::roq_busiest(times.as_ptr(), times.len()) };
    Error::checked(second.answer).map(|()| Second { count: second.count, place: second.place })
}
