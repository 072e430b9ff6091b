//! What is stale by the words of document 03, A2: every pixel of every window that the call would draw is asked. The
//! original has no such call.
use crate::area::Area;
use crate::shadow::Shadow;
use crate::text::Text;

/// The windows that the call goes through, and whether it draws them in full: "0 an undivided redraw that is not told to
/// be full, 1 one that is, 2 the next portion".
fn meant(shadow: &Shadow, which: u32) -> (&[usize], bool) {
    let order = &shadow.places.order;
    match (which, shadow.walk) {
        (2, Some(walk)) => (&order[walk.done..walk.done + 1], walk.full),
        (2, None) => (&[], false),
        _ => (order, which == 1 || shadow.owed),
    }
}

/// "the smallest rectangle that holds every pixel of the given one which that call, made next …, would write … or none"
fn smallest(shadow: &Shadow, which: u32, area: &Area) -> Option<Area> {
    let (windows, full) = meant(shadow, which);
    let drawn = windows.iter().filter(|&&id| full || shadow.marked[id]);
    drawn.filter_map(|&id| written(shadow, id, full, area)).reduce(|a, b| a.union(&b))
}

/// Of one window that is drawn: "with full or an empty damage list all visible entries are written, else …"
fn written(shadow: &Shadow, id: usize, full: bool, area: &Area) -> Option<Area> {
    let at = shadow.places.at[id];
    let part = at.common(area)?;
    let is_hurt = |x: u32, y: u32| full || shadow.damage[id].has(x - at.left, y - at.top);
    let pixels = (part.top..part.bottom).flat_map(|y| (part.left..part.right).map(move |x| (x, y)));
    let own = pixels.filter(|&(x, y)| is_hurt(x, y) && shadow.places.topmost(x, y) == Some(id));
    own.map(|(x, y)| Area::new(x, y, 1, 1)).reduce(|a, b| a.union(&b))
}

/// `X Y W H`, or `none`.
pub fn tell(shadow: &Shadow, which: u32, area: &Area, out: &mut Text) {
    match smallest(shadow, which, area) {
        Some(r) => out.numbers(&[r.left, r.top, r.w(), r.h()]),
        None => out.word("none"),
    }
}
