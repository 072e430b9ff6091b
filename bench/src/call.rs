//! What both sides are told, and what they say.
use roqshyn::{Error, Pos, Second, Share};

/// A rectangle: x, y, w, h.
#[derive(Clone, Copy, Debug, PartialEq)]
pub struct Area(pub u32, pub u32, pub u32, pub u32);

/// Each call, and the exported function that does it.
macro_rules! calls {
    ($($(#[$doc:meta])* $call:ident $(($($argument:ty),*))? => $function:literal,)*) => {
        #[derive(Clone, Debug)]
        pub enum Call {
            $($(#[$doc])* $call $(($($argument),*))?,)*
        }

        impl Call {
            pub fn function(&self) -> &'static str {
                match self {
                    $(Call::$call { .. } => $function,)*
                }
            }
        }
    };
}

calls! {
    Create => "roq_create",
    Show(u32) => "roq_show",
    Raise(u32) => "roq_raise",
    Hide(u32) => "roq_hide",
    Drop(u32) => "roq_drop",
    Mark(u32) => "roq_mark",
    /// So many marks, of windows 0 to 15 in turn, in a loop of their own: a mark is shorter than what hands a call
    /// over.
    Marks(u32) => "roq_mark",
    Move(u32, u32, u32) => "roq_move",
    Drag(u32, u32, u32) => "roq_drag",
    Layer(u32, u32) => "roq_set_layer",
    Resize(u32, u32, u32) => "roq_resize",
    Display(Area) => "roq_add_display",
    DisplayAt(u32, u32) => "roq_display_at",
    Maximise(u32) => "roq_maximise",
    UpdateDims => "roq_update_dims",
    Fill(u32, Area, u32) => "roq_fill",
    /// The data have the area's width as their stride.
    Blit(u32, Area, Vec<u32>) => "roq_blit",
    Press(u32, u32) => "roq_route",
    Release(u32, u32) => "roq_route",
    /// A MouseMove.
    Point(u32, u32) => "roq_route",
    Pop(u32) => "roq_pop",
    Redraw(bool) => "roq_redraw",
    Begin(bool) => "roq_begin",
    Portion => "roq_portion",
    Dim(bool) => "roq_dim",
    /// Of a forced redraw, on the whole screen.
    Stale => "roq_stale",
    Visible(u32) => "roq_visible",
    Share(u32) => "roq_share",
    Hits(Vec<Pos>) => "roq_hits",
    /// At window 0, from a corner on: a factor, or none to fit. The screen is the target.
    Look(f64, f64, Option<f64>) => "roq_look",
    Sheet(u32) => "roq_sheet",
    /// The last sheet that was written.
    ReadSheet => "roq_read_sheet",
    Busiest(Vec<u32>) => "roq_busiest",
}

impl Call {
    /// How often it calls that function.
    pub fn times(&self) -> usize {
        match *self {
            Call::Marks(times) => times as usize,
            _ => 1,
        }
    }
}

/// An event that was popped.
#[derive(Clone, Copy, Debug, PartialEq)]
pub enum Popped {
    Resize,
    Press(u32, u32),
    Release(u32, u32),
    Point(u32, u32, i16, i16),
    /// The lists of this benchmark queue no other.
    Other,
}

#[derive(Clone, Copy, Debug, PartialEq)]
pub enum Reply {
    Answer(u32),
    Id(u32),
    Event(Option<Popped>),
    /// How many rectangles a visible list has, or a sheet that was read.
    Count(usize),
    /// Whether a position is on the display, or it is the closest.
    Display(bool, Area),
    Share(Result<Share, Error>),
    Second(Result<Second, Error>),
}

/// All that a side shows of itself.
#[derive(PartialEq)]
pub struct State {
    pub focus: u32,
    /// Of each window.
    pub visible: Vec<Vec<Area>>,
    pub pixels: Vec<Vec<u32>>,
    pub screen: Vec<u32>,
    /// Of the last points: where each lies in its window.
    pub points: Vec<Option<(u32, u32)>>,
    /// Of the last sheet: a rectangle for each interval.
    pub sheet: Vec<Area>,
}

/// One of the implementations, with a session, pixels and a screen.
pub trait Side {
    fn call(&mut self, call: &Call) -> Reply;
    fn is_screen(&self, like: &dyn Fn(&[u32]) -> bool) -> bool;
    fn state(&mut self) -> State;
}
