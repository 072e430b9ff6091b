//! Random lists of calls.
mod bare;
mod changes;
mod displays;
mod input;
mod layouts;
mod no_calls;
mod paint;
mod scene;
mod sheets;
mod standing;
mod state;
mod walks;
mod wrong;

use crate::entry::Entry;
use crate::random::Random;
use crate::script::Script;
use crate::tally::Tally;
pub use scene::Scene;

/// Nothing, or the entry of "Not common" that the next call would fall under.
pub type Step = Result<(), Entry>;

/// Makes lists of calls, and plays them on the original meanwhile.
pub struct Maker<'a> {
    random: &'a mut Random,
    script: &'a mut Script,
    tally: &'a mut Tally,
    scene: Scene,
}

/// Appends a list to the script.
pub fn append(random: &mut Random, script: &mut Script, tally: &mut Tally, scene: Scene) {
    script.starts.push(script.lines.len());
    tally.lists += 1;
    let mut maker = Maker { random, script, tally, scene };
    if let Err(entry) = maker.list() {
        maker.tally.ended_by(entry);
    }
    // None of these lines falls under an entry.
    let _ = maker.whole_state();
}

type Action<'a> = fn(&mut Maker<'a>) -> Step;

impl<'a> Maker<'a> {
    /// Now and then an action that leaves the common ground ends the list; else another is tried.
    fn list(&mut self) -> Step {
        self.say(&format!("start {}", self.scene.c))?;
        if self.random.chance(500) {
            self.displays()?;
        }
        let _ = self.layout();
        for _ in 0..self.scene.actions {
            let action = self.action();
            if let Err(entry) = action(self) {
                if self.random.chance(self.scene.ends) {
                    return Err(entry);
                }
            }
        }
        Ok(())
    }

    fn action(&mut self) -> Action<'a> {
        self.random.weighted::<Action<'a>>(&[
            (8, Maker::add_window),
            (6, Maker::show),
            (2, Maker::raise),
            (4, Maker::hide),
            (1, Maker::drop),
            (14, Maker::move_window),
            (2, Maker::drag_window),
            (5, Maker::drag),
            (8, Maker::resize),
            (16, Maker::fill),
            (4, Maker::fill_strips),
            (2, Maker::fill_many),
            (12, Maker::blit),
            (1, Maker::blit_far),
            (6, Maker::mark),
            (10, Maker::redraw),
            (5, Maker::paint),
            (2, Maker::begin),
            (3, Maker::portion),
            (2, Maker::walk),
            (3, Maker::dim),
            (4, Maker::layer),
            (3, Maker::display),
            (6, Maker::display_at),
            (4, Maker::maximise),
            (5, Maker::update_dims),
            (2, Maker::spread),
            (16, Maker::event),
            (6, Maker::who),
            (4, Maker::press),
            (14, Maker::pop),
            (1, Maker::flood),
            (12, Maker::look),
            (5, Maker::share),
            (4, Maker::hits),
            (4, Maker::stale),
            (2, Maker::waiting),
            (3, Maker::window),
            (2, Maker::session),
            (4, Maker::sheet),
            (8, Maker::geometry),
            (6, Maker::bare_pixels),
            (3, Maker::wrong),
        ])
    }

    /// Plays a line on the original and keeps it.
    fn say(&mut self, line: &str) -> Step {
        self.script.play(line, self.tally)
    }
}
