//! Calls of the original that look for displays. It keeps them apart from its groups, so that a player's are put there first.
use crate::text::Text;
use original::metadevs::video::get_display_for_pos;
use original::metadevs::video::lent::put_displays;
use original::windows::group::Group;
use original::{Pos, Rect};

pub fn maximise(group: &mut Group, displays: &[Rect], id: u32) {
    put_displays(displays);
    group.maximise(id)
}

pub fn update_dims(group: &mut Group, displays: &[Rect]) {
    put_displays(displays);
    group.update_dims()
}

/// Writes the display behind the answer.
pub fn display_at(displays: &[Rect], x: u32, y: u32, out: &mut Text) {
    put_displays(displays);
    let (word, region) = match get_display_for_pos(Pos::new(x, y)) {
        Ok(region) => ("on", region),
        Err(region) => ("closest", region),
    };
    out.word(word);
    out.rect(&region);
}
