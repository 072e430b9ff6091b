//! What the times are held against. The original is the one without its locks: how long a lock takes differs from
//! machine to machine, and ours has none.
use crate::class::{Beside, Class};
use crate::classes::{LAYER, MIX, MIX_OF_EIGHT, RAISE, RAISED};
use crate::dimming::DIMMED;
use crate::displays::{DISPLAY_AT, MAXIMISE, UPDATE};
use crate::drags::{DRAG, DRAGS, DRAGS_OF_EIGHT};
use crate::looks::LOOK;
use crate::measure::Measured;
use crate::pixman;
use crate::points::POINTS;
use crate::report::{range, whole, NO_PIXMAN};
use crate::seconds::BUSIEST;
use crate::shares::SHARE;
use crate::sheets::{READ, WRITTEN};
use crate::stales::STALE;
use crate::summary::Numbers;

#[derive(Clone, Copy)]
enum Bound {
    /// At most so many times the other side's time.
    Time(f64),
    /// At least so fast beside `memcpy` of the same rows.
    Rows(f64),
    /// At least so fast beside `memset` of C.
    Cleared(f64),
}
use Bound::{Cleared, Rows, Time};

struct Target {
    what: &'static str,
    beside: Beside,
    /// How the names of its classes begin.
    classes: &'static [&'static str],
    bound: Bound,
}

const fn target(what: &'static str, beside: Beside, classes: &'static [&'static str], bound: Bound) -> Target {
    Target { what, beside, classes, bound }
}

const FULL: &[&str] = &["full redraw 800", "full redraw 6,400"];
const MIXES: &[&str] = &[MIX, "the same, panels anywhere", MIX_OF_EIGHT];

const TARGETS: [Target; 44] = [
    target("mark", Beside::Original, &["mark"], Time(1.0)),
    target("move", Beside::Original, &["move, "], Time(1.0)),
    target("drag", Beside::Original, &[DRAG], Time(1.0)),
    target("show, hide", Beside::Original, &["hide or show"], Time(1.0)),
    target("change of layer", Beside::Original, &[LAYER], Time(1.0)),
    target("raise", Beside::Original, &[RAISE], Time(1.0)),
    target("raise and redraw", Beside::Original, &[RAISED], Time(1.0)),
    target("create, drop", Beside::Original, &["create or drop"], Time(1.0)),
    target("press", Beside::Original, &["press"], Time(1.0)),
    target("pop", Beside::Original, &["pop"], Time(1.0)),
    target("fill, blit, 16 by 16", Beside::Original, &["fill 16 by 16", "blit 16 by 16"], Time(1.0)),
    // Ours count the pixels altered, which the original does not: a second load and a comparison.
    target("fill, 100 by 50", Beside::Original, &["fill 100 by 50"], Time(1.1)),
    target("blit, 100 by 50", Beside::Original, &["blit 100 by 50"], Time(1.4)),
    target("redraw of one button", Beside::Original, &["redraw of a button"], Time(1.2)),
    target("redraw of 16 marked windows", Beside::Original, &["redraw of 16 marked"], Time(1.0)),
    target("a redraw beside its pixels", Beside::Original, &["full redraw 1 by 1, windows"], Time(1.4)),
    target("full redraw", Beside::Original, FULL, Time(1.02)),
    target("full redraw", Beside::Original, FULL, Rows(0.97)),
    target("all portions of a full redraw", Beside::Undivided, &["all portions"], Time(1.1)),
    target("the station's mix", Beside::Original, MIXES, Time(1.02)),
    target("the station's mix", Beside::Original, MIXES, Rows(0.97)),
    target("a second of drags, one display", Beside::Moved, &[DRAGS], Time(0.3)),
    target("a second of drags, eight displays", Beside::Moved, &[DRAGS_OF_EIGHT], Time(0.1)),
    target("a second of drags without events", Beside::Pixman, &[DRAGS, DRAGS_OF_EIGHT], Time(1.1)),
    target("resize", Beside::Original, &["resize"], Cleared(0.95)),
    target("maximise", Beside::Original, &[MAXIMISE], Cleared(0.95)),
    target("update of windows on eight displays", Beside::Original, &[UPDATE], Time(1.0)),
    target("display at a position", Beside::Original, &[DISPLAY_AT], Time(1.1)),
    target("visible list", Beside::Pixman, &["visible list"], Time(1.0)),
    target("visible list", Beside::PixmanAtOnce, &["visible list"], Time(1.0)),
    target("fill", Beside::Loops, &["fill "], Time(1.0)),
    target("blit", Beside::Loops, &["blit "], Time(1.0)),
    target("dimmed full redraw", Beside::Table, &[DIMMED], Time(1.0)),
    target("share in view", Beside::Pixman, &[SHARE], Time(1.0)),
    target("share in view", Beside::PixmanAtOnce, &[SHARE], Time(1.0)),
    target("share in view", Beside::Listed, &[SHARE], Time(1.0)),
    target("what is stale, 1 by 1", Beside::Drawn, &[STALE], Time(2.0)),
    target("32 points together", Beside::Original, &[POINTS], Time(1.0)),
    target("region sheet, written", Beside::Pixman, &[WRITTEN], Time(1.0)),
    target("region sheet, written", Beside::PixmanAtOnce, &[WRITTEN], Time(1.0)),
    target("region sheet, read", Beside::Pixman, &[READ], Time(1.0)),
    target("region sheet, read", Beside::PixmanAtOnce, &[READ], Time(1.0)),
    target("a closer look", Beside::Floats, &[LOOK], Time(0.7)),
    target("busiest second of 4,096 events", Beside::OnePass, &[BUSIEST], Time(1.1)),
];

impl Target {
    fn has(&self, class: &Class) -> bool {
        self.beside == class.beside && !class.is_cold && self.classes.iter().any(|name| class.name.starts_with(name))
    }
    fn beside(&self) -> &'static str {
        match (self.bound, self.beside) {
            (Rows(_), _) => "`memcpy` of the same rows, speed",
            (Cleared(_), _) => "`memset` of C, speed",
            (_, Beside::Original) => "the original without its locks, time",
            (_, Beside::Pixman) => "pixman, time",
            (_, Beside::PixmanAtOnce) => "pixman, those above as one region, time",
            (_, Beside::Loops) => "a loop in Rust, time",
            (_, Beside::Undivided) => "our undivided redraw, time",
            (_, Beside::Moved) => "the same with our moves, time",
            (_, Beside::Table) => "a loop over the same table in Rust, time",
            (_, Beside::Bright) => "our redraw with dimming off, time",
            (_, Beside::Listed) => "our visible list, time",
            (_, Beside::Drawn) => "our redraw 1 by 1, time",
            (_, Beside::Floats) => "a loop with the same rule in f64 in Rust, time",
            (_, Beside::OnePass) => "the same loop in Rust, time",
            (_, Beside::Square) => "the square form in Rust, time",
        }
    }
    fn number(&self, m: &Measured) -> f64 {
        match self.bound {
            Time(_) if self.beside == Beside::Original => m.unlocked_ratio,
            Time(_) => m.ratio,
            Rows(_) | Cleared(_) => m.speed,
        }
    }
    fn is_met(&self, number: f64) -> bool {
        // As it is printed.
        let hundredths = |number: f64| (100.0 * number).round();
        match self.bound {
            Time(most) => hundredths(number) <= hundredths(most),
            Rows(least) | Cleared(least) => hundredths(number) >= hundredths(least),
        }
    }
    fn row(&self, classes: &[Class], results: &[Measured]) -> String {
        let own = classes.iter().zip(results).filter(|(class, _)| self.has(class));
        let numbers: Vec<f64> = own.map(|(_, m)| self.number(m)).filter(|n| !n.is_nan()).collect();
        if numbers.is_empty() {
            return String::new();
        }
        let missed = numbers.iter().filter(|&&n| !self.is_met(n)).count();
        let says = match (missed, numbers.len()) {
            (0, _) => "met".to_string(),
            (_, 1) => "missed".to_string(),
            (missed, all) => format!("missed by {missed} of {all}"),
        };
        let bound = match self.bound {
            Time(most) => format!("at most {most:.2}"),
            Rows(least) | Cleared(least) => format!("at least {least:.2}"),
        };
        format!("| {} | {} | {} | {bound} | {says} |\n", self.what, self.beside(), range(&numbers))
    }
}

/// The most that a redraw may take of the stack, in bytes.
const STACK: f64 = 8192.0;

/// What is no time: the stack of a redraw, and which calls but a start copy the session.
fn counted(copies: &Numbers, stack: &Numbers) -> String {
    let says = |is_met: bool| if is_met { "met" } else { "missed" };
    let deepest = stack.get("roq_redraw").copied().unwrap_or(f64::NAN);
    let copied = copies.iter().filter(|(call, copies)| call.as_str() != "roq_start" && **copies > 0.0).count();
    format!(
        "| stack of a redraw | bytes | {} | at most {} | {} |\n| calls but a start that copy the session | | {copied} | 0 | {} |\n",
        whole(deepest),
        whole(STACK),
        says(deepest <= STACK),
        says(copied == 0)
    )
}

pub fn table(classes: &[Class], results: &[Measured], copies: &Numbers, stack: &Numbers) -> String {
    let rows: String = TARGETS.iter().map(|target| target.row(classes, results)).collect();
    let rows = rows + &counted(copies, stack);
    let left_out = if pixman::INSTALLED { String::new() } else { format!("\n{}", NO_PIXMAN) };
    format!("| what | beside | measured | target | |\n|---|---|---|---|---|\n{rows}{left_out}")
}
