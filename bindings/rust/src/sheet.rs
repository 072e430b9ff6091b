//! The call on sheets alone.
use crate::raw;
use crate::{Error, Rect};

/// A list of so many rectangles always suffices for [`read_sheet`], and of [`MOST_RECTS`](crate::MOST_RECTS) for a sheet of a session.
pub const MOST_READ: usize = 1953;

/// The rectangles of a sheet, one an interval, in its order, at the front of the list; [`Error::NoSheet`] where the bytes are none.
#[inline]
pub fn read_sheet<'a>(bytes: &[u8], list: &'a mut [Rect]) -> Result<&'a [Rect], Error> {
    // A rectangle is four numbers.
    let (to, room) = (list.as_mut_ptr().cast(), 4 * list.len());
    // SAFETY: pointers and lengths are those of two slices, of which one is only read; a rectangle may have any numbers.
    let listing = unsafe { raw::roq_read_sheet(bytes.as_ptr(), bytes.len(), to, room) };
    Error::checked(listing.answer).map(|()| &list[..listing.count])
}
