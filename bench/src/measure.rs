//! The sides and the limit, timed in turns: whatever else the machine does slows all.
use crate::call::{Call, Side};
use crate::check;
use crate::class::{Beside, Class, Limit};
use crate::dimming::{through, Bright};
use crate::drags::moved;
use crate::earlier;
use crate::locked;
use crate::looks::floats;
use crate::loops::Loops;
use crate::ours::Ours;
use crate::pixman::Pixman;
use crate::plain::Plain;
use crate::seconds::InRust;
use crate::shares::listed;
use crate::stales::drawn;
use crate::undivided::undivided;
use crate::unlocked;
use std::hint::black_box;
use std::time::Instant;

/// How long one side works in a round, in nanoseconds: long beside the clock's step, short beside the system's time slices.
const TURN: f64 = 300_000.0;
/// A class has as many rounds as this allows, within bounds.
const BUDGET: f64 = 20_000_000.0;
const MOST_ROUNDS: f64 = 51.0;
const LEAST_ROUNDS: f64 = 15.0;
/// Rounds with empty caches; it takes long to empty them, so there are few where a round has many redraws.
const LEAST_COLD: usize = 3;

/// Nanoseconds of one part, and ratios of times taken one after the other. What was not measured is no number (NaN).
#[derive(Clone, Copy)]
pub struct Measured {
    pub ours: f64,
    pub theirs: f64,
    /// The original without its locks.
    pub unlocked: f64,
    pub limit: f64,
    /// Ours by theirs.
    pub ratio: f64,
    pub unlocked_ratio: f64,
    /// How fast we are beside the limit: its time by ours.
    pub speed: f64,
}

const NOTHING: Measured = Measured {
    ours: f64::NAN,
    theirs: f64::NAN,
    unlocked: f64::NAN,
    limit: f64::NAN,
    ratio: f64::NAN,
    unlocked_ratio: f64::NAN,
    speed: f64::NAN,
};

/// Who takes part.
struct Turns<Other> {
    ours: Ours,
    theirs: Option<Other>,
    unlocked: Option<unlocked::Theirs>,
    limit: Option<Plain>,
}

pub fn measure(class: &Class) -> Measured {
    let scene = &class.scene;
    if !earlier::has(class) {
        return NOTHING;
    }
    if class.is_cold {
        return cold(class);
    }
    let ours = || Ours::new(scene.c, scene.width, scene.height);
    match class.beside {
        Beside::Original => beside(class, scene.common.then(|| locked::Theirs::new(scene.width, scene.height))),
        Beside::Pixman => beside(class, Some(Pixman::new(scene.width, scene.height, false))),
        Beside::PixmanAtOnce => beside(class, Some(Pixman::new(scene.width, scene.height, true))),
        Beside::Loops => beside(class, Some(Loops::new(scene.width, scene.height))),
        Beside::Undivided => beside(class, Some(undivided(ours()))),
        Beside::Moved => beside(class, Some(moved(ours()))),
        Beside::Table => beside(class, Some(through(ours()))),
        Beside::Bright => beside(class, Some(Bright::new(ours()))),
        Beside::Listed => beside(class, Some(listed(ours()))),
        Beside::Drawn => beside(class, Some(drawn(ours()))),
        Beside::Floats => beside(class, Some(floats(ours()))),
        Beside::OnePass => beside(class, Some(InRust::one_pass())),
        Beside::Square => beside(class, Some(InRust::square())),
    }
}

fn beside(class: &Class, mut theirs: Option<impl Side>) -> Measured {
    let scene = &class.scene;
    let mut ours = Ours::new(scene.c, scene.width, scene.height);
    match &mut theirs {
        Some(theirs) => check::same(class, &mut ours, theirs),
        None => check::alone(class, &mut ours),
    }
    let unlocked = unlocked_side(class);
    let limit = match &class.limit {
        Limit::None => None,
        Limit::Rows(rows) => Some(Plain::copied(rows)),
        Limit::Redraws => Some(ours.plain(class)),
        Limit::Cleared(pixels) => Some(Plain::cleared(*pixels)),
    };
    let (times, rounds) = plan(class, &mut ours);
    let mut turns = Turns { ours, theirs, unlocked, limit };
    let all: Vec<Measured> = (0..rounds).map(|r| round(class, times, r, &mut turns)).collect();
    middle(&all)
}

/// The original without its locks, where the original takes part; it must say and show the same too.
fn unlocked_side(class: &Class) -> Option<unlocked::Theirs> {
    let scene = &class.scene;
    if class.beside != Beside::Original || !scene.common {
        return None;
    }
    let mut side = unlocked::Theirs::new(scene.width, scene.height);
    check::same(class, &mut Ours::new(scene.c, scene.width, scene.height), &mut side);
    Some(side)
}

/// How often the calls are made in a turn, and how many rounds there are.
fn plan(class: &Class, ours: &mut Ours) -> (usize, usize) {
    // A single call of the square form is a long turn.
    if class.beside == Beside::Square {
        return (1, LEAST_ROUNDS as usize);
    }
    let times = times_in_a_turn(class, ours);
    let turn = time(class, ours, times) * (times * class.parts) as f64;
    (times, (BUDGET / turn).clamp(LEAST_ROUNDS, MOST_ROUNDS) as usize)
}

/// Our time alone. The clock is read at each call, and stands still while the caches are emptied.
fn cold(class: &Class) -> Measured {
    let mut ours = Ours::new(class.scene.c, class.scene.width, class.scene.height);
    check::alone(class, &mut ours);
    let mut taken = |call: &Call| {
        if let Call::Redraw(_) | Call::Begin(_) = call {
            ours.flush();
        }
        let start = Instant::now();
        black_box(ours.call(black_box(call)));
        start.elapsed().as_nanos()
    };
    let mut second = || {
        let nanoseconds: u128 = class.timed.iter().map(&mut taken).sum();
        class.between.iter().for_each(|call| _ = taken(call));
        nanoseconds as f64 / class.parts as f64
    };
    let rounds = LEAST_COLD.max(LEAST_ROUNDS as usize / class.timed.len());
    let ours = median((0..rounds).map(|_| second()).collect());
    Measured { ours, ..NOTHING }
}

/// Who begins changes from round to round.
fn round(class: &Class, times: usize, round: usize, turns: &mut Turns<impl Side>) -> Measured {
    let mut taken = [f64::NAN; 4];
    for turn in 0..4 {
        let who = (round + turn) % 4;
        taken[who] = match who {
            0 => time(class, &mut turns.ours, times),
            1 => turns.theirs.as_mut().map_or(f64::NAN, |side| time(class, side, times)),
            2 => turns.unlocked.as_mut().map_or(f64::NAN, |side| time(class, side, times)),
            _ => turns.limit.as_mut().map_or(f64::NAN, |plain| plain.time(times * class.parts)),
        };
    }
    let [ours, theirs, unlocked, limit] = taken;
    let (ratio, unlocked_ratio, speed) = (ours / theirs, ours / unlocked, limit / ours);
    Measured { ours, theirs, unlocked, limit, ratio, unlocked_ratio, speed }
}

/// Nanoseconds of one part.
fn time(class: &Class, side: &mut impl Side, times: usize) -> f64 {
    let mut nanoseconds = 0;
    // The clock is read as seldom as can be.
    let (inner, outer) = if class.between.is_empty() { (times, 1) } else { (1, times) };
    for _ in 0..outer {
        let start = Instant::now();
        for _ in 0..inner {
            for call in &class.timed {
                black_box(side.call(black_box(call)));
            }
        }
        nanoseconds += start.elapsed().as_nanos();
        for call in &class.between {
            side.call(call);
        }
    }
    nanoseconds as f64 / (times * class.parts) as f64
}

fn times_in_a_turn(class: &Class, side: &mut impl Side) -> usize {
    let mut times = 1;
    while time(class, side, times) * ((times * class.parts) as f64) < TURN {
        times *= 2;
    }
    times
}

/// The median of each number.
pub fn middle(all: &[Measured]) -> Measured {
    let of = |number: fn(&Measured) -> f64| median(all.iter().map(number).collect());
    Measured {
        ours: of(|m| m.ours),
        theirs: of(|m| m.theirs),
        unlocked: of(|m| m.unlocked),
        limit: of(|m| m.limit),
        ratio: of(|m| m.ratio),
        unlocked_ratio: of(|m| m.unlocked_ratio),
        speed: of(|m| m.speed),
    }
}

pub fn median(mut numbers: Vec<f64>) -> f64 {
    numbers.sort_by(f64::total_cmp);
    numbers[numbers.len() / 2]
}
