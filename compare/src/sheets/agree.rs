//! The judges of a window's sheet, held against each other; and what sheets there were.
use super::judges::of_areas;
use super::pixman;
use super::scene::{self, window_and_above, Window};
use crate::area::Area;
use crate::player::{Played, Player};
use crate::sheet::{bytes, Band};
use crate::text::Text;
use std::collections::BTreeMap;

#[derive(Default)]
pub struct Kinds {
    times: BTreeMap<&'static str, u64>,
    pub sheets: u64,
    /// Bands, intervals in a band, and bytes.
    most: (usize, usize, usize),
}

impl Kinds {
    pub fn agree(&mut self, windows: &[Window], sheets: &[Vec<Band>], original: &mut Player) -> Result<(), String> {
        let is_common = is_common(windows, original);
        for (id, bands) in sheets.iter().enumerate() {
            let by_pixman = window_and_above(windows, id).and_then(|(w, above)| pixman::of_window(&w, &above));
            if by_pixman.as_ref().is_some_and(|by_pixman| by_pixman != bands) {
                return Err(format!("sheet {id}: by pixels {bands:?}, by pixman {by_pixman:?}"));
            }
            if let Some(theirs) = is_common.then(|| of_areas(&visible(original, id))).filter(|theirs| theirs != bands) {
                return Err(format!("sheet {id}: by pixels {bands:?}, by the original's rectangles {theirs:?}"));
            }
            self.count(bands, is_common, windows[id].is_shown);
        }
        Ok(())
    }

    fn count(&mut self, bands: &[Band], is_common: bool, is_shown: bool) {
        let what = match (is_shown, bands.is_empty(), is_common) {
            (false, ..) => "of a hidden window",
            (_, true, _) => "of no pixel",
            (_, _, true) => "as the original's rectangles",
            _ => "where the original loses parts of windows, or a window is on layer 1",
        };
        *self.times.entry(what).or_default() += 1;
        self.sheets += 1;
        let spans = bands.iter().map(|band| band.spans.len()).max().unwrap_or(0);
        let most = &mut self.most;
        *most = (most.0.max(bands.len()), most.1.max(spans), most.2.max(bytes(bands).len()));
    }

    pub fn print(&self) {
        self.times.iter().for_each(|(what, times)| println!("written, {what}: {times}"));
        let (bands, spans, bytes) = self.most;
        println!("at most {bands} bands, {spans} intervals in a band and {bytes} bytes");
    }
}

/// Whether the original has the windows, and no line was outside the common ground.
fn is_common(windows: &[Window], original: &mut Player) -> bool {
    let mut played = |line: &String| original.line(line.as_bytes(), &mut Text::default());
    scene::lines(windows).iter().all(|line| !matches!(played(line), Played::Outside(_)))
}

/// The visible list of the original.
fn visible(original: &mut Player, id: usize) -> Vec<Area> {
    let mut answer = Text::default();
    original.line(format!("visible {id}").as_bytes(), &mut answer);
    let text = String::from_utf8_lossy(&answer.0).into_owned();
    let numbers: Vec<u32> = text.split_whitespace().skip(2).filter_map(|number| number.parse().ok()).collect();
    numbers.chunks_exact(4).map(|rect| Area::new(rect[0], rect[1], rect[2], rect[3])).collect()
}
