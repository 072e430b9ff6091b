//! How things stand by the words of document 03, A5, as the shadow has them. The original has no such calls.
use crate::shadow::Shadow;

/// `X Y W H SHOWN PLACE LAYER MAXIMISED MARKED QUEUED MOVED`
pub fn window(shadow: &Shadow, id: usize) -> [u32; 11] {
    let places = &shadow.places;
    let at = places.at[id];
    let place = places.order.iter().position(|&shown| shown == id);
    let [queued, moved] = shadow.waits.of(id);
    [
        at.left,
        at.top,
        at.w(),
        at.h(),
        place.is_some().into(),
        place.unwrap_or(0) as u32,
        places.layer(id),
        places.maximised[id].into(),
        shadow.marked[id].into(),
        queued,
        moved,
    ]
}

/// `SHOWN FOCUS HELD DIMMED OWED WALK LEFT DISPLAYS`: "Nobody is 16."; "WALK is 0 with no walk, 1 with one that is not
/// full, 2 with a full one"
pub fn session(shadow: &Shadow, focus: u32) -> [u32; 8] {
    let shown = shadow.places.order.len();
    let (walk, left) = shadow.walk.map_or((0, 0), |walk| (1 + u32::from(walk.full), shown - walk.done));
    [
        shown as u32,
        if shown > 0 { focus } else { 16 },
        shadow.held.map_or(16, |id| id as u32),
        shadow.is_dimmed().into(),
        shadow.owed.into(),
        walk,
        left as u32,
        shadow.places.displays.count() as u32,
    ]
}
