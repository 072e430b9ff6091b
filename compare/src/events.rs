//! Events on the original: routed, and popped and written.
use crate::text::Text;
use original::input::Event;
use original::windows::group::{Group, Routed};

/// Routes an event; answers 0, 11 or 12.
pub fn route(group: &mut Group, event: Event) -> u8 {
    let routed = group.route(event);
    match (event, routed) {
        (Event::Resize, _) | (_, Routed::Taken) => 0,
        (_, Routed::NoWindow) => 11,
        (_, Routed::NoRoom) => 12,
    }
}

/// Pops an event and writes answer and event, or 10.
pub fn pop(group: &mut Group, id: u32, out: &mut Text) {
    let Some(event) = group.pop(id) else {
        return out.answer(10);
    };
    out.answer(0);
    out.word(name(&event));
    match event {
        Event::Resize => {}
        Event::KeyDown(v) | Event::KeyUp(v) | Event::KeyFire(v) | Event::Text(v) => out.number(v),
        Event::MouseMove(x, y, dx, dy) => {
            out.numbers(&[x, y]);
            out.word(&dx.to_string());
            out.word(&dy.to_string());
        }
        Event::MouseDown(x, y, b) | Event::MouseUp(x, y, b) => out.numbers(&[x, y, u32::from(b)]),
        Event::MouseClick(x, y, b, n) => out.numbers(&[x, y, u32::from(b), u32::from(n)]),
    }
}

fn name(event: &Event) -> &'static str {
    match event {
        Event::Resize => "Resize",
        Event::KeyDown(_) => "KeyDown",
        Event::KeyUp(_) => "KeyUp",
        Event::KeyFire(_) => "KeyFire",
        Event::Text(_) => "Text",
        Event::MouseMove(..) => "MouseMove",
        Event::MouseDown(..) => "MouseDown",
        Event::MouseClick(..) => "MouseClick",
        Event::MouseUp(..) => "MouseUp",
    }
}
