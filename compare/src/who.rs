//! Who took an event, by the words of document 03, A4. Of a pointer event it is the window that has something to pop
//! after the event was routed on a copy of the original in which no event waits. The original has no such call.
use original::input::Event;
use original::windows::group::Group;

/// "Nobody, with the point (0,0)"; "Nobody is 16."
const NOBODY: [u32; 3] = [16, 0, 0];

/// The window that takes an event, if it is accepted, and the point that it is given.
pub fn takes(group: &Group, event: Event) -> [u32; 3] {
    match event {
        Event::Resize => NOBODY,
        Event::KeyDown(_) | Event::KeyUp(_) | Event::KeyFire(_) | Event::Text(_) => [group.focus().into(), 0, 0],
        _ => takes_at_point(group.copied(), event),
    }
}

fn takes_at_point(mut copy: Group, event: Event) -> [u32; 3] {
    copy.route(event);
    let popped = |id| match copy.pop(id)? {
        Event::MouseMove(x, y, ..) | Event::MouseDown(x, y, _) => Some([id, x, y]),
        Event::MouseClick(x, y, ..) | Event::MouseUp(x, y, _) => Some([id, x, y]),
        _ => None,
    };
    (0..16).find_map(popped).unwrap_or(NOBODY)
}
