//! Ids. How wide they are is said here and in roqshyn.h alone.

/// The id of a window. It may be made of any number: a call that gets one that no window has gives question 3's error.
///
/// ```
/// use roqshyn::{Error, Id, Session};
/// let mut session = Session::start(1)?;
/// let plan = session.create()?;
/// assert_eq!((u32::from(plan), session.show(Id::from(0))), (0, Ok(())));
/// assert_eq!(session.show(Id::from(65_536)), Err(Error::UnknownId));
/// # Ok::<(), Error>(())
/// ```
#[derive(Clone, Copy, Debug, PartialEq, Eq, PartialOrd, Ord, Hash)]
pub struct Id(pub(crate) u32);

impl From<u32> for Id {
    #[inline]
    fn from(number: u32) -> Id {
        Id(number)
    }
}

impl From<Id> for u32 {
    #[inline]
    fn from(id: Id) -> u32 {
        id.0
    }
}

impl From<Id> for usize {
    #[inline]
    fn from(id: Id) -> usize {
        id.0 as usize
    }
}
