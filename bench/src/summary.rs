//! What a station's engineer wants to know, and what each exported call takes.
use crate::class::{Beside, Class, COLD};
use crate::classes::{ALL, EIGHT, LONGEST, MIX, MIX_OF_EIGHT, THREE};
use crate::dimming;
use crate::dimming::DIMMED;
use crate::drags::{DRAGS, DRAGS_OF_EIGHT};
use crate::looks;
use crate::measure::Measured;
use crate::pixman;
use crate::report::{nanoseconds, whole, NO_PIXMAN};
use crate::scene::{HEIGHT, WIDTH};
use crate::seconds::{BUSIEST, EVENTS, KINDS, SQUARE};
use crate::sheets::{self, AT_ONCE, READ, WRITTEN};
use std::collections::{BTreeMap, BTreeSet};

/// A number for each exported function, from lines `function number`.
pub type Numbers = BTreeMap<String, f64>;

pub fn numbers(text: &str) -> Numbers {
    let line = |line: &str| {
        let (function, number) = line.split_once(' ')?;
        Some((function.to_string(), number.parse().ok()?))
    };
    text.lines().filter_map(line).collect()
}

/// The longest single call of a function, and its class.
struct Longest<'a> {
    function: &'static str,
    time: f64,
    class: &'a Class,
}

/// Of the classes on screens up to a width. Where a class has two functions, each takes the mean of both.
fn longest<'a>(classes: &'a [Class], results: &[Measured], width: u32) -> Vec<Longest<'a>> {
    let mut all: Vec<Longest> = Vec::new();
    let is_timed = |class: &Class| class.is_single() && class.beside != Beside::Square && class.scene.width <= width;
    for (class, m) in classes.iter().zip(results).filter(|(class, _)| is_timed(class)) {
        for function in class.timed.iter().map(|call| call.function()) {
            match all.iter_mut().find(|longest| longest.function == function) {
                Some(longest) if longest.time >= m.ours => {}
                Some(longest) => *longest = Longest { function, time: m.ours, class },
                None => all.push(Longest { function, time: m.ours, class }),
            }
        }
    }
    all.sort_by_key(|longest| longest.function);
    all
}

/// The first table: one display, and eight.
pub fn station(classes: &[Class], results: &[Measured], stack: &Numbers) -> String {
    let share = |name: String| {
        let of_mix = |(class, m): (&Class, &Measured)| (class.name == name).then_some(m.ours);
        let second = classes.iter().zip(results).find_map(of_mix).expect("a class of this name");
        format!("{:.2} %", second / 1e9 * 100.0)
    };
    let shares = |end: &str| (share(format!("{MIX}{end}")), share(format!("{MIX_OF_EIGHT}{end}")));
    let drags = |end: &str| (share(format!("{DRAGS}{end}")), share(format!("{DRAGS_OF_EIGHT}{end}")));
    let call = |width: u32| {
        let longest = longest(classes, results, width).into_iter().max_by(|a, b| a.time.total_cmp(&b.time));
        let Longest { function, time, .. } = longest.expect("a class");
        format!("{:.2} ms, `{function}`", time / 1e6)
    };
    let both = |what: String| (what.clone(), what);
    let c = WIDTH * HEIGHT;
    let screen = |displays: u32| format!("{} bytes", whole(f64::from(displays * c * 4)));
    let deepest = stack.iter().max_by(|a, b| a.1.total_cmp(b.1));
    let deepest = deepest.map_or(String::new(), |(function, bytes)| format!("{} bytes, `{function}`", whole(*bytes)));
    let rows = [
        ("share of a core at 200 events and 30 full redraws a second", shares("")),
        ("the same, no pixel in a cache at a redraw", shares(COLD)),
        ("share of a core at 200 events and 30 redraws a second, with drags", drags("")),
        ("the same, no pixel in a cache at a redraw", drags(COLD)),
        ("longest call", (call(WIDTH), call(8 * WIDTH))),
        ("session", both(format!("{} bytes", whole(size_of::<roqshyn::Session>() as f64)))),
        ("store of 16 windows, C = 384,000 (800 by 480)", both(format!("{} bytes", whole(f64::from(16 * c * 4))))),
        ("screen", (screen(1), screen(8))),
        ("stack, deepest call", both(deepest)),
    ];
    let rows: String = rows.iter().map(|(what, (one, eight))| format!("| {what} | {one} | {eight} |\n")).collect();
    format!("| | one display, 800 by 480 | eight displays, 6,400 by 480 |\n|---|---|---|\n{rows}")
}

fn named<'a>(classes: &[Class], results: &'a [Measured], name: &str) -> &'a Measured {
    let found = classes.iter().zip(results).find(|(class, _)| class.name == name);
    found.expect("a class of this name").1
}

/// Full redraws of eight displays beside walks that draw the same.
pub fn portions(classes: &[Class], results: &[Measured]) -> String {
    let of = |name: String| named(classes, results, &name);
    let time = |time: f64| format!("{:.2} ms", time / 1e6);
    let row = |what: &str, name: &str| {
        let (all, longest) = (of(format!("{ALL} {name}")), of(format!("{LONGEST} {name}")));
        let (undivided, sum, longest) = (time(all.theirs), time(all.ours), time(longest.ours));
        format!("| {what} | {undivided} | {sum} | {:.2} | {longest} |\n", all.ratio)
    };
    let cold = (of(format!("full redraw {EIGHT}{COLD}")), of(format!("{LONGEST} {EIGHT}{COLD}")));
    format!(
        "| | undivided | all portions | ratio | longest portion |\n|---|---:|---:|---:|---:|\n{}\
         | the same, no pixel in a cache | {} | | | {} |\n{}",
        row("a plan and a panel on each display", EIGHT),
        time(cold.0.ours),
        time(cold.1.ours),
        row("three plans, as large as windows may be, and 13 panels", THREE)
    )
}

/// The busiest second, by the event.
pub fn seconds(classes: &[Class], results: &[Measured]) -> String {
    let an_event = |time: f64| nanoseconds(time / f64::from(EVENTS));
    let row = |kind: &&str| {
        let pass = named(classes, results, &format!("{BUSIEST}, {kind}"));
        let square = named(classes, results, &format!("{BUSIEST}, {kind}{SQUARE}"));
        let (ours, same, anew) = (an_event(pass.ours), an_event(pass.theirs), an_event(square.theirs));
        format!("| {kind} | {ours} | {same} | {:.2} | {anew} |\n", pass.ratio)
    };
    let rows: String = KINDS.iter().map(row).collect();
    format!(
        "| 4,096 events | ours, ns an event | the same loop in Rust | ratio | the square form in Rust |\n\
         |---|---:|---:|---:|---:|\n{rows}"
    )
}

/// Dimmed full redraws of a station's screen, by the pixel.
pub fn dims(classes: &[Class], results: &[Measured]) -> String {
    let a_pixel = |time: f64| format!("{:.2}", time / f64::from(WIDTH * HEIGHT));
    let row = |name: &String| {
        let of = |beside| {
            let is = |(class, _): &(&Class, &Measured)| class.name == *name && class.beside == beside;
            *classes.iter().zip(results).find(is).expect("a class of this name").1
        };
        let (table, bright) = (of(Beside::Table), of(Beside::Bright));
        let (ours, loops, off) = (a_pixel(table.ours), a_pixel(table.theirs), a_pixel(bright.theirs));
        let what = name.trim_start_matches(DIMMED).trim_start_matches(", ");
        format!("| {what} | {ours} | {loops} | {:.2} | {off} |\n", table.ratio)
    };
    let rows: String = dimming::names().iter().map(row).collect();
    format!(
        "| 800 by 480 | ours, ns a pixel | the loop in Rust | ratio | dimming off |\n|---|---:|---:|---:|---:|\n{rows}"
    )
}

/// Looks at a window, by the pixel of the target.
pub fn looks(classes: &[Class], results: &[Measured]) -> String {
    let row = |&(factor, width, height): &(Option<f64>, u32, u32)| {
        let m = named(classes, results, &looks::name(factor));
        let a_pixel =
            |time: f64| if time.is_nan() { String::new() } else { format!("{:.2}", time / f64::from(width * height)) };
        let (ours, floats, copy) = (a_pixel(m.ours), a_pixel(m.theirs), a_pixel(m.limit));
        let what = factor.map_or("fit".to_string(), |factor| factor.to_string());
        format!("| {what} | {width} by {height} | {ours} | {floats} | {:.2} | {copy} |\n", m.ratio)
    };
    let rows: String = looks::LOOKS.iter().map(row).collect();
    format!(
        "| factor | target | ours, ns a pixel | the loop in f64 in Rust | ratio | `memcpy` of the rows |\n\
         |---|---|---:|---:|---:|---:|\n{rows}"
    )
}

/// The sheet of a plan under 15 bars, beside pixman's region of it.
pub fn sheets(classes: &[Class], results: &[Measured]) -> String {
    if !pixman::INSTALLED {
        return NO_PIXMAN.to_string();
    }
    let row = |what: &&str| {
        let one = named(classes, results, &sheets::name(what, ""));
        let at_once = named(classes, results, &sheets::name(what, AT_ONCE));
        let (ours, theirs, region) = (nanoseconds(one.ours), nanoseconds(one.theirs), nanoseconds(at_once.theirs));
        format!("| {what} | {ours} | {theirs} | {:.2} | {region} | {:.2} |\n", one.ratio, at_once.ratio)
    };
    let rows: String = [WRITTEN, READ].iter().map(row).collect();
    format!(
        "| 144 intervals, 646 bytes | ours, ns | pixman, one by one | ratio | pixman, at once | ratio |\n\
         |---|---:|---:|---:|---:|---:|\n{rows}"
    )
}

/// Each exported call: its longest class, its copies of the session and its stack. Those that are not timed touch at most one row.
pub fn calls(classes: &[Class], results: &[Measured], copies: &Numbers, stack: &Numbers) -> String {
    let longest = longest(classes, results, u32::MAX);
    let number = |numbers: &Numbers, function: &str| numbers.get(function).map_or(String::new(), |n| whole(*n));
    let row = |function: &String| {
        let timed = longest.iter().find(|longest| longest.function == function);
        let (time, class) = timed.map_or((String::new(), ""), |l| (nanoseconds(l.time), &l.class.name));
        let (copies, stack) = (number(copies, function), number(stack, function));
        format!("| `{function}` | {copies} | {stack} | {time} | {class} |\n")
    };
    let functions: BTreeSet<&String> = copies.keys().chain(stack.keys()).collect();
    let rows: String = functions.into_iter().map(row).collect();
    format!("| call | copies of the session | stack, bytes | longest, ns | in |\n|---|---:|---:|---:|---|\n{rows}")
}
