//! The busiest second of a run of event times, in two forms as one writes them in Rust: the same loop as ours, and the square form, which counts
//! the events of every second anew.
use crate::call::{Call, Reply, Side, State};
use crate::class::{Beside, Class};
use crate::scene;
use roqshyn::{Error, Second};

/// How the names of the classes begin, and those of the square form end.
pub const BUSIEST: &str = "busiest second";
pub const SQUARE: &str = ", the square form";
/// The longest run that is taken.
pub const EVENTS: u32 = 4096;
/// The kinds of runs.
pub const KINDS: [&str; 4] = ["200 a second, evenly", "200 a second, unevenly", "bursts", "all at one time"];
/// So many runs of a kind take turns, since a processor foresees the branches of a run that it has just seen.
const RUNS: u32 = 16;

pub fn classes() -> Vec<Class> {
    let mut all = Vec::new();
    for (beside, way, runs) in [(Beside::OnePass, "", RUNS), (Beside::Square, SQUARE, 1)] {
        for (kind, gap) in KINDS.iter().zip(GAPS) {
            let calls = (1..=runs).map(|seed| Call::Busiest(run(seed, gap))).collect();
            all.push(Class::new(format!("{BUSIEST}, {kind}{way}"), scene::empty(), calls).beside(beside));
        }
    }
    all
}

/// How far a time is from the one before it, from any number; in the order of the kinds.
const GAPS: [fn(u32) -> u32; 4] = [|_| 5, |number| number % 11, burst, |_| 0];

/// Some 40 events within 60 milliseconds, and then none for 0.3 to 3 seconds.
fn burst(number: u32) -> u32 {
    if number % 40 == 0 {
        return 300 + number % 2700;
    }
    number % 4
}

/// The numbers follow no pattern (xorshift).
fn run(seed: u32, gap: fn(u32) -> u32) -> Vec<u32> {
    let (mut number, mut time) = (seed * 2_654_435, 0);
    let next = |_| {
        number ^= number << 13;
        number ^= number >> 17;
        number ^= number << 5;
        time += gap(number);
        time
    };
    (0..EVENTS).map(next).collect()
}

pub struct InRust(fn(&[u32]) -> Result<Second, Error>);

impl InRust {
    pub fn one_pass() -> InRust {
        InRust(one_pass)
    }
    pub fn square() -> InRust {
        InRust(square)
    }
}

fn one_pass(times: &[u32]) -> Result<Second, Error> {
    if times.len() > EVENTS as usize {
        return Err(Error::RunLength);
    }
    let (mut first, mut next, mut before) = (0, 0, 0);
    let (mut count, mut place) = (0, 0);
    while next < times.len() {
        let time = times[next];
        if time < before {
            return Err(Error::TimesDescend);
        }
        if time - times[first] < 1000 {
            before = time;
            next += 1;
            if next - first > count {
                count = next - first;
                place = first;
            }
        } else {
            first += 1;
        }
    }
    Ok(Second { count, place })
}

fn square(times: &[u32]) -> Result<Second, Error> {
    if times.len() > EVENTS as usize {
        return Err(Error::RunLength);
    }
    if !times.is_sorted() {
        return Err(Error::TimesDescend);
    }
    let (mut count, mut place) = (0, 0);
    for (at, &time) in times.iter().enumerate() {
        let events = times.iter().filter(|&&other| other >= time && other - time < 1000).count();
        if events > count {
            (count, place) = (events, at);
        }
    }
    Ok(Second { count, place })
}

impl Side for InRust {
    fn call(&mut self, call: &Call) -> Reply {
        match call {
            Call::Busiest(times) => Reply::Second(self.0(times)),
            _ => unreachable!("{call:?}"),
        }
    }

    fn is_screen(&self, like: &dyn Fn(&[u32]) -> bool) -> bool {
        like(&[0])
    }

    fn state(&mut self) -> State {
        let (visible, pixels) = (vec![Vec::new(); 16], vec![Vec::new(); 16]);
        State { focus: 0, visible, pixels, screen: vec![0], points: Vec::new(), sheet: Vec::new() }
    }
}
