//! A session and its calls, in the order of roqshyn.h, which says of each what it does and what it asks.
use crate::raw;
use crate::{Error, Event, Id, Pos, Rect};
use core::cell::Cell;
use core::marker::PhantomData;
use core::mem::size_of;

/// So many windows there may be; the store has as many times C pixels.
pub const WINDOWS: usize = 16;
/// A list of so many rectangles always suffices for [`Session::visible`].
pub const MOST_RECTS: usize = 496;
/// So many points [`Session::hits`] takes at most.
pub const MOST_POINTS: usize = 32;
/// A buffer of so many bytes always suffices for [`Session::sheet`].
pub const MOST_SHEET: usize = 2048;
/// So many displays there may be.
pub const MOST_DISPLAYS: usize = 8;

/// A session. It is begun by `start`, and only its own calls change it, which is all that the library asks of a caller.
///
/// SAFETY of every call below: the pointer is that of a session which `roq_start` and later calls left; a pointer and a length are those of one
/// slice, which is lent for the call, and no two slices overlap; every other argument may be any number.
// One thread at a time uses it: the mark keeps it from being shared.
pub struct Session(raw::Session, PhantomData<Cell<()>>);

/// How much of a window is in view: 100 times its unobscured pixels, divided by all its pixels.
#[derive(Clone, Copy, Debug, PartialEq, Eq)]
pub struct Share {
    pub percent: u32,
    pub remainder: u32,
}

/// What lies under a point: a window, by its number, and the point in it; or nobody, ROQ_NOBODY, at (0,0).
#[repr(C)]
#[derive(Clone, Copy, Debug, Default, PartialEq, Eq)]
pub struct Hit {
    pub window: u32,
    pub at: Pos,
}

impl Hit {
    /// The window, if there is one.
    pub fn id(self) -> Option<Id> {
        (self.window < WINDOWS as u32).then_some(Id(self.window))
    }
}

/// How much a look magnifies: by 0.25, 0.5, 1, 2 or 4, or so that the window fits the target.
#[derive(Clone, Copy, Debug, PartialEq)]
pub enum Zoom {
    Factor(f64),
    Fit,
}

/// A corner in the window, and a zoom. With [`Zoom::Fit`] the corner is not looked at.
#[derive(Clone, Copy, Debug, PartialEq)]
pub struct Look {
    pub x: f64,
    pub y: f64,
    pub zoom: Zoom,
}

impl Look {
    /// The whole window.
    pub const fn fit() -> Look {
        Look { x: 0.0, y: 0.0, zoom: Zoom::Fit }
    }

    #[inline]
    fn raw(self) -> raw::Look {
        let (factor, fit) = match self.zoom {
            Zoom::Factor(factor) => (factor, false),
            Zoom::Fit => (0.0, true),
        };
        raw::Look { x: self.x, y: self.y, factor, fit }
    }
}

/// The display that a position is on, or else the closest one, which is (0,0,0,0) where there is none.
#[derive(Clone, Copy, Debug, PartialEq, Eq)]
pub enum Located {
    On(Rect),
    Closest(Rect),
}

/// The call that [`Session::stale`] is asked of: a redraw that is not forced, one that is, or the next portion.
#[derive(Clone, Copy, Debug, PartialEq, Eq)]
pub enum Meant {
    Redraw = 0,
    ForcedRedraw = 1,
    Portion = 2,
}

/// How a window stands.
#[derive(Clone, Copy, Debug, PartialEq, Eq)]
pub struct WindowState {
    pub rect: Rect,
    /// Its place in the order of drawing, 0 for the lowest; none where it is hidden.
    pub place: Option<u32>,
    pub layer: u32,
    pub maximised: bool,
    pub marked: bool,
    /// How many events are queued, without a move.
    pub queued: u32,
    /// Whether a move is unread.
    pub moved: bool,
}

/// A walk that is on.
#[derive(Clone, Copy, Debug, PartialEq, Eq)]
pub struct Walk {
    pub full: bool,
    /// How many portions are left.
    pub left: u32,
}

/// How a session stands.
#[derive(Clone, Copy, Debug, PartialEq, Eq)]
pub struct SessionState {
    pub c: u32,
    /// How many windows are shown.
    pub shown: u32,
    /// None where no window is shown.
    pub focus: Option<Id>,
    /// The window that took the last MouseDown, while it is remembered.
    pub grab: Option<Id>,
    pub dimmed: bool,
    /// Whether a full redraw is owed.
    pub owed: bool,
    pub walk: Option<Walk>,
    /// How many displays there are.
    pub displays: u32,
}

/// A window, or none where the number is nobody's, ROQ_NOBODY.
#[inline]
fn someone(number: u32) -> Option<Id> {
    (number < WINDOWS as u32).then_some(Id(number))
}

#[inline]
fn altered(altered: raw::Altered) -> Result<usize, Error> {
    Error::checked(altered.answer).map(|()| altered.altered)
}

impl Session {
    /// A session without windows, whose windows will have room for c pixels each. It panics where the archive that was
    /// linked belongs to another header, with sessions of another size.
    pub fn start(c: u32) -> Result<Session, Error> {
        assert_eq!(unsafe { raw::roq_session_size() }, size_of::<raw::Session>(), "bytes of a session");
        // `roq_start` asks for zeros or a session.
        let mut session = Session(raw::Session::ZEROS, PhantomData);
        Error::checked(unsafe { raw::roq_start(&mut session.0, c) })?;
        Ok(session)
    }

    /// A window with the smallest unused id, at (0,0), of size (0,0), hidden.
    #[inline]
    pub fn create(&mut self) -> Result<Id, Error> {
        let made = unsafe { raw::roq_create(&mut self.0) };
        Error::checked(made.answer).map(|()| Id(made.id))
    }

    /// Puts a window on top of its layer and gives it the focus; nothing where it is shown.
    #[inline]
    pub fn show(&mut self, id: Id) -> Result<(), Error> {
        Error::checked(unsafe { raw::roq_show(&mut self.0, id.0) })
    }

    /// Brings a window to the top of its layer and gives it the focus; it forgets no press. A hidden window is shown.
    #[inline]
    pub fn raise(&mut self, id: Id) -> Result<(), Error> {
        Error::checked(unsafe { raw::roq_raise(&mut self.0, id.0) })
    }

    /// Takes a window off the screen; nothing where it is hidden.
    #[inline]
    pub fn hide(&mut self, id: Id) -> Result<(), Error> {
        Error::checked(unsafe { raw::roq_hide(&mut self.0, id.0) })
    }

    /// Hides a window and frees its id.
    #[inline]
    pub fn drop(&mut self, id: Id) -> Result<(), Error> {
        Error::checked(unsafe { raw::roq_drop(&mut self.0, id.0) })
    }

    /// Has the next redraw draw a window's damage, or all that is seen of it where it has none.
    #[inline]
    pub fn mark(&mut self, id: Id) -> Result<(), Error> {
        Error::checked(unsafe { raw::roq_mark(&mut self.0, id.0) })
    }

    /// Places a window's top left corner.
    #[inline]
    pub fn move_window(&mut self, id: Id, x: u32, y: u32) -> Result<(), Error> {
        Error::checked(unsafe { raw::roq_move(&mut self.0, id.0, x, y) })
    }

    /// Places a window's top left corner, and has its old and its new place drawn and not everything; for a finger that
    /// moves a panel.
    #[inline]
    pub fn drag(&mut self, id: Id, x: u32, y: u32) -> Result<(), Error> {
        Error::checked(unsafe { raw::roq_drag(&mut self.0, id.0, x, y) })
    }

    /// Puts a window on layer 0 or 1, at its top if it is shown: none of layer 0 covers those of layer 1, or takes a press on them.
    #[inline]
    pub fn set_layer(&mut self, id: Id, layer: u32) -> Result<(), Error> {
        Error::checked(unsafe { raw::roq_set_layer(&mut self.0, id.0, layer) })
    }

    /// Gives a window another size; the pixels of both sizes stay.
    #[inline]
    pub fn resize(&mut self, id: Id, w: u32, h: u32, store: &mut [u32]) -> Result<(), Error> {
        Error::checked(unsafe { raw::roq_resize(&mut self.0, id.0, w, h, store.as_mut_ptr(), store.len()) })
    }

    /// Adds a display, a rectangle of the one screen, behind those that are there.
    #[inline]
    pub fn add_display(&mut self, region: Rect) -> Result<(), Error> {
        Error::checked(unsafe { raw::roq_add_display(&mut self.0, region) })
    }

    /// The first display that has the position, or else the one with the pixel nearest to it in a straight line, the first of several.
    #[inline]
    pub fn display_at(&self, at: Pos) -> Result<Located, Error> {
        let display = unsafe { raw::roq_display_at(&self.0, at.x, at.y) };
        Error::checked(display.answer)?;
        Ok(if display.on { Located::On(display.rect) } else { Located::Closest(display.rect) })
    }

    /// A window takes the display that it is on, corner and size; it is maximised until it is moved or resized.
    #[inline]
    pub fn maximise(&mut self, id: Id, store: &mut [u32]) -> Result<(), Error> {
        Error::checked(unsafe { raw::roq_maximise(&mut self.0, id.0, store.as_mut_ptr(), store.len()) })
    }

    /// Every maximised window takes its display again, or the closest one, and every other that is on none comes to the closest.
    #[inline]
    pub fn update_dims(&mut self, store: &mut [u32]) -> Result<(), Error> {
        Error::checked(unsafe { raw::roq_update_dims(&mut self.0, store.as_mut_ptr(), store.len()) })
    }

    /// Fills the part of the area that lies in the window, and counts the pixels that have another value then.
    #[inline]
    pub fn fill(&mut self, id: Id, area: Rect, colour: u32, store: &mut [u32]) -> Result<usize, Error> {
        altered(unsafe { raw::roq_fill(&mut self.0, id.0, area, colour, store.as_mut_ptr(), store.len()) })
    }

    /// Rows of the area take successive chunks of `stride` data; it counts likewise.
    #[inline]
    pub fn blit(&mut self, id: Id, area: Rect, stride: usize, data: &[u32], store: &mut [u32]) -> Result<usize, Error> {
        let (px, len) = (store.as_mut_ptr(), store.len());
        altered(unsafe { raw::roq_blit(&mut self.0, id.0, area, stride, data.as_ptr(), data.len(), px, len) })
    }

    /// Hands an event on: keys to the focus, pointer events to the topmost window at the point, a MouseUp to the window of its MouseDown.
    #[inline]
    pub fn route(&mut self, event: Event) -> Result<(), Error> {
        Error::checked(unsafe { raw::roq_route(&mut self.0, event.numbers()) })
    }

    /// Hands an event on as [`Session::route`] does, and gives the window that took it and the point that it was given,
    /// (0,0) for keys and Text; of a Resize, nobody.
    #[inline]
    pub fn route_to(&mut self, event: Event) -> Result<Option<(Id, Pos)>, Error> {
        let routed = unsafe { raw::roq_route_to(&mut self.0, event.numbers()) };
        let taker = (routed.id < WINDOWS as u32).then_some((Id(routed.id), Pos::new(routed.x, routed.y)));
        Error::checked(routed.answer).map(|()| taker)
    }

    /// The oldest event of a window's queue, or else its unread MouseMove.
    #[inline]
    pub fn pop(&mut self, id: Id) -> Result<Event, Error> {
        let popped = unsafe { raw::roq_pop(&mut self.0, id.0) };
        Error::checked(popped.answer).map(|()| Event::of(popped.event))
    }

    /// The windows that have something to pop, smallest id first.
    #[inline]
    pub fn waiting(&self) -> impl Iterator<Item = Id> {
        let bits = unsafe { raw::roq_waiting(&self.0) };
        (0..WINDOWS as u32).filter(move |number| bits >> number & 1 == 1).map(Id)
    }

    /// Draws the shown windows on the screen: everything where `forced` or owed, else the marked ones.
    #[inline]
    pub fn redraw(
        &mut self,
        forced: bool,
        width: u32,
        height: u32,
        store: &[u32],
        screen: &mut [u32],
    ) -> Result<(), Error> {
        let (px, len) = (screen.as_mut_ptr(), screen.len());
        let s = &mut self.0;
        Error::checked(unsafe { raw::roq_redraw(s, forced, width, height, store.as_ptr(), store.len(), px, len) })
    }

    /// Begins a walk, which is a redraw window by window.
    #[inline]
    pub fn begin(&mut self, forced: bool) -> Result<(), Error> {
        Error::checked(unsafe { raw::roq_begin(&mut self.0, forced) })
    }

    /// Draws the walk's next window, lowest first; [`Error::NoWalk`] where it is over.
    #[inline]
    pub fn portion(&mut self, width: u32, height: u32, store: &[u32], screen: &mut [u32]) -> Result<(), Error> {
        let (px, len) = (screen.as_mut_ptr(), screen.len());
        let s = &mut self.0;
        Error::checked(unsafe { raw::roq_portion(s, width, height, store.as_ptr(), store.len(), px, len) })
    }

    /// Switches dimming.
    #[inline]
    pub fn dim(&mut self, on: bool) -> Result<(), Error> {
        Error::checked(unsafe { raw::roq_dim(&mut self.0, on) })
    }

    /// The smallest rectangle that holds every pixel of the area which that call, made next, would write.
    #[inline]
    pub fn stale(&self, meant: Meant, area: Rect) -> Result<Option<Rect>, Error> {
        let stale = unsafe { raw::roq_stale(&self.0, meant as u32, area) };
        Error::checked(stale.answer).map(|()| stale.due.then_some(stale.rect))
    }

    /// The visible rectangles of a window, relative to it, at the front of the list.
    #[inline]
    pub fn visible<'a>(&self, id: Id, list: &'a mut [Rect]) -> Result<&'a [Rect], Error> {
        // A rectangle is four numbers.
        let listing = unsafe { raw::roq_visible(&self.0, id.0, list.as_mut_ptr().cast(), 4 * list.len()) };
        Error::checked(listing.answer).map(|()| &list[..listing.count])
    }

    /// How much of a window is in view.
    #[inline]
    pub fn share(&self, id: Id) -> Result<Share, Error> {
        let share = unsafe { raw::roq_share(&self.0, id.0) };
        Error::checked(share.answer).map(|()| Share { percent: share.percent, remainder: share.remainder })
    }

    /// What lies under up to 32 points, in their order, at the front of the answers.
    #[inline]
    pub fn hits<'a>(&self, points: &[Pos], answers: &'a mut [Hit]) -> Result<&'a [Hit], Error> {
        // A point is two numbers, an answer three.
        let (from, to) = (points.as_ptr().cast(), answers.as_mut_ptr().cast());
        Error::checked(unsafe { raw::roq_hits(&self.0, from, 2 * points.len(), to, 3 * answers.len()) })?;
        Ok(&answers[..points.len()])
    }

    /// Fills a target of tw by th pixels with what a look shows of a window, shown or hidden: 0 outside the window.
    #[inline]
    pub fn look(&self, id: Id, look: Look, tw: u32, th: u32, store: &[u32], target: &mut [u32]) -> Result<(), Error> {
        let (px, len) = (target.as_mut_ptr(), target.len());
        Error::checked(unsafe {
            raw::roq_look(&self.0, id.0, look.raw(), tw, th, store.as_ptr(), store.len(), px, len)
        })
    }

    /// The visible part of a window, relative to it, as a sheet at the front of the bytes; one zero byte where nothing of it is seen.
    #[inline]
    pub fn sheet<'a>(&self, id: Id, bytes: &'a mut [u8]) -> Result<&'a [u8], Error> {
        let listing = unsafe { raw::roq_sheet(&self.0, id.0, bytes.as_mut_ptr(), bytes.len()) };
        Error::checked(listing.answer).map(|()| &bytes[..listing.count])
    }

    /// The window that has the focus; 0 where none is shown.
    #[inline]
    pub fn focus(&self) -> Id {
        Id(unsafe { raw::roq_focus(&self.0) })
    }

    /// A window's position and size.
    #[inline]
    pub fn rect_of(&self, id: Id) -> Result<Rect, Error> {
        let placed = unsafe { raw::roq_rect_of(&self.0, id.0) };
        Error::checked(placed.answer).map(|()| placed.rect)
    }

    /// How a window stands.
    #[inline]
    pub fn window(&self, id: Id) -> Result<WindowState, Error> {
        let raw::Window { answer, rect, shown, place, layer, maximised, marked, queued, moved } =
            unsafe { raw::roq_window(&self.0, id.0) };
        let place = shown.then_some(place);
        Error::checked(answer).map(|()| WindowState { rect, place, layer, maximised, marked, queued, moved })
    }

    /// How the session stands.
    #[inline]
    pub fn state(&self) -> SessionState {
        let raw::State { c, shown, focus, grab, dimmed, owed, walk, full, left, displays } =
            unsafe { raw::roq_state(&self.0) };
        let walk = walk.then_some(Walk { full, left });
        SessionState { c, shown, focus: someone(focus), grab: someone(grab), dimmed, owed, walk, displays }
    }
}
