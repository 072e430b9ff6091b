//! Events: an enum here, numbers in the library.
use crate::raw;
use crate::Pos;

/// Something that happened, at a point of the screen where it is routed, and of the window where it was popped.
#[derive(Clone, Copy, Debug, PartialEq, Eq)]
pub enum Event {
    /// The window has another size.
    Resize,
    KeyDown(u32),
    KeyUp(u32),
    /// Refused where it is routed: a throttle repeats its keys itself.
    KeyFire(u32),
    Text(u32),
    /// Its difference from the last one that the window popped; not read where it is routed.
    MouseMove {
        at: Pos,
        dx: i16,
        dy: i16,
    },
    MouseDown {
        at: Pos,
        button: u8,
    },
    MouseClick {
        at: Pos,
        button: u8,
        count: u8,
    },
    MouseUp {
        at: Pos,
        button: u8,
    },
}

const NOTHING: raw::Event = raw::Event { x: 0, y: 0, value: 0, dx: 0, dy: 0, kind: 0, button: 0, count: 0 };

impl Event {
    /// A finger or a mouse that has moved.
    #[inline]
    pub fn mouse_move(at: Pos) -> Event {
        Event::MouseMove { at, dx: 0, dy: 0 }
    }

    #[inline]
    pub(crate) fn numbers(self) -> raw::Event {
        let key = |kind, value| raw::Event { kind, value, ..NOTHING };
        let mouse = |kind, at: Pos, button, count| raw::Event { kind, x: at.x, y: at.y, button, count, ..NOTHING };
        match self {
            Event::Resize => key(1, 0),
            Event::KeyDown(value) => key(2, value),
            Event::KeyUp(value) => key(3, value),
            Event::KeyFire(value) => key(4, value),
            Event::Text(value) => key(5, value),
            Event::MouseMove { at, .. } => mouse(6, at, 0, 0),
            Event::MouseDown { at, button } => mouse(7, at, button, 0),
            Event::MouseClick { at, button, count } => mouse(8, at, button, count),
            Event::MouseUp { at, button } => mouse(9, at, button, 0),
        }
    }

    #[inline]
    pub(crate) fn of(e: raw::Event) -> Event {
        let at = Pos::new(e.x, e.y);
        match e.kind {
            1 => Event::Resize,
            2 => Event::KeyDown(e.value),
            3 => Event::KeyUp(e.value),
            4 => Event::KeyFire(e.value),
            5 => Event::Text(e.value),
            6 => Event::MouseMove { at, dx: e.dx, dy: e.dy },
            7 => Event::MouseDown { at, button: e.button },
            8 => Event::MouseClick { at, button: e.button, count: e.count },
            9 => Event::MouseUp { at, button: e.button },
            kind => unreachable!("a popped event has a kind from 1 to 9, and not {kind}"),
        }
    }
}
