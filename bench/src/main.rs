//! The same lists of calls on our library, on the original with and without its locks, on pixman and on loops in Rust:
//! tables of times, and two plots of the full redraw.
//!
//! `bench FOLDER COPIES STACK` writes speed-table.md, redraw-windows.svg and redraw-pixels.svg there, puts its tables into SPEED.md and
//! prints all of them; the two files have a number for each exported call. `bench --beside PROGRAM` compares with this benchmark linked
//! with another archive, and writes nothing.
mod call;
mod check;
mod class;
mod classes;
mod dimming;
mod displays;
mod drags;
mod earlier;
mod instead;
mod locked;
mod looks;
mod loops;
mod measure;
mod mix;
mod ours;
mod pixman;
mod plain;
mod plot;
mod points;
mod report;
mod rows;
mod scene;
mod seconds;
mod shares;
mod sheets;
mod stales;
mod summary;
mod targets;
mod undivided;
mod unlocked;

use class::{Beside, Class};
use measure::{measure, middle, Measured};
use plot::{Curve, Plot};
use std::fs;
use std::path::Path;
use std::process::Command;

/// Where code and pixels lie in memory changes the times, and differs from process to process: so there are several.
const PROCESSES: usize = 5;
/// The word that makes a process measure.
const ONCE: &str = "--once";

fn main() {
    let words: Vec<String> = std::env::args().skip(1).collect();
    let words: Vec<&str> = words.iter().map(String::as_str).collect();
    match words[..] {
        [ONCE] => once(),
        ["--beside", other] => beside(other),
        [folder, copies, stack] => tables(Path::new(folder), &read(copies), &read(stack)),
        _ => panic!("bench FOLDER COPIES STACK, or bench --beside PROGRAM"),
    }
}

fn once() {
    let (table, windows, pixels) = (classes::table(), classes::by_windows(), classes::by_pixels());
    let plotted = windows.iter().chain(&pixels).map(|(_, class)| class);
    for m in table.iter().chain(plotted).map(measure) {
        println!("{} {} {} {} {} {} {}", m.ours, m.theirs, m.unlocked, m.limit, m.ratio, m.unlocked_ratio, m.speed);
    }
}

fn tables(folder: &Path, copies: &str, stack: &str) {
    let (table, windows, pixels) = (classes::table(), classes::by_windows(), classes::by_pixels());
    let (copies, stack) = (summary::numbers(copies), summary::numbers(stack));
    let runs: Vec<Vec<Measured>> = (0..PROCESSES).map(|_| in_a_process(&this_program())).collect();
    let results: Vec<Measured> = (0..runs[0].len()).map(|i| middle(&of_class(&runs, i))).collect();
    let (of_table, of_plots) = results.split_at(table.len());
    let (of_windows, of_pixels) = of_plots.split_at(windows.len());
    let short = [
        ("station", summary::station(&table, of_table, &stack)),
        ("targets", targets::table(&table, of_table, &copies, &stack)),
        ("portions", summary::portions(&table, of_table)),
        ("seconds", summary::seconds(&table, of_table)),
        ("dims", summary::dims(&table, of_table)),
        ("looks", summary::looks(&table, of_table)),
        ("sheets", summary::sheets(&table, of_table)),
        ("calls", summary::calls(&table, of_table, &copies, &stack)),
    ];
    let long = tell(&table, of_table, &runs);
    short.iter().for_each(|(_, table)| println!("{table}"));
    print!("{long}");
    put(&folder.join("SPEED.md"), &short);
    write(&folder.join("speed-table.md"), &long);
    write(&folder.join("redraw-windows.svg"), &by_windows(&windows, of_windows));
    write(&folder.join("redraw-pixels.svg"), &by_pixels(&pixels, of_pixels));
}

fn of_class(runs: &[Vec<Measured>], class: usize) -> Vec<Measured> {
    runs.iter().map(|run| run[class]).collect()
}

fn tell(classes: &[Class], results: &[Measured], runs: &[Vec<Measured>]) -> String {
    let table = |beside| report::table(beside, classes, results, runs);
    let (original, loops, undivided) = (table(Beside::Original), table(Beside::Loops), table(Beside::Undivided));
    let (one_pass, square, listed) = (table(Beside::OnePass), table(Beside::Square), table(Beside::Listed));
    let (moved, drawn) = (table(Beside::Moved), table(Beside::Drawn));
    let (through, bright, floats) = (table(Beside::Table), table(Beside::Bright), table(Beside::Floats));
    let pixman = if pixman::INSTALLED { table(Beside::Pixman) } else { report::NO_PIXMAN.to_string() };
    format!(
        "# Speed table\n\nWritten by `bash bench/run`. [SPEED.md](SPEED.md) says what is measured.\n\n\
         ## Beside the original\n\n{original}\n{}\n## Beside pixman\n\n{pixman}\n\
         ## Beside a loop over rows in Rust\n\n{loops}\n## Portions beside our undivided redraw\n\n{undivided}\n\
         ## Drags beside our moves\n\n{moved}\n\
         ## Busiest second of 4,096 events beside the same loop in Rust\n\n{one_pass}\n\
         ## Busiest second of 4,096 events beside the square form in Rust\n\n{square}\n\
         ## Share in view beside our visible list and the sum of its areas\n\n{listed}\n\
         ## What is stale of one pixel beside our redraw 1 by 1\n\n{drawn}\n\
         ## Dimmed redraw beside a loop over the same table in Rust\n\n{through}\n\
         ## Dimmed redraw beside our redraw with dimming off\n\n{bright}\n\
         ## A closer look beside a loop in f64 in Rust\n\n{floats}",
        report::notes(classes)
    )
}

/// The same benchmark with another archive, process by process in turns.
fn beside(other: &str) {
    let (mut ours, mut others) = (Vec::new(), Vec::new());
    for turn in 0..2 * PROCESSES {
        // Who begins changes from pair to pair.
        if turn % 4 == 0 || turn % 4 == 3 {
            others.push(in_a_process(other));
        } else {
            ours.push(in_a_process(&this_program()));
        }
    }
    print!("{}", report::archives(&classes::table(), &ours, &others));
}

fn by_windows(classes: &[(f64, Class)], results: &[Measured]) -> String {
    let plot = Plot {
        title: "Full redraw of 800 by 480, by the number of windows",
        across: "windows",
        up: "microseconds",
        curves: curves(classes, results, 1.0, 1000.0),
    };
    plot.svg()
}

fn by_pixels(classes: &[(f64, Class)], results: &[Measured]) -> String {
    let plot = Plot {
        title: "Full redraw, by the number of pixels",
        across: "millions of pixels",
        up: "microseconds",
        curves: curves(classes, results, 1e6, 1000.0),
    };
    plot.svg()
}

fn curves(classes: &[(f64, Class)], results: &[Measured], across: f64, up: f64) -> Vec<Curve> {
    let curve = |name, colour, time: fn(&Measured) -> f64| {
        let points = classes.iter().zip(results).map(|((x, _), m)| (x / across, time(m) / up)).collect();
        Curve { name, colour, points }
    };
    vec![
        curve("memcpy, same rows", "#777777", |m| m.limit),
        curve("the original", "#d05020", |m| m.theirs),
        curve("without its locks", "#e0a030", |m| m.unlocked),
        curve("ours", "#1060c0", |m| m.ours),
    ]
}

/// Puts each table between its two marks.
fn put(file: &Path, tables: &[(&str, String)]) {
    let mut text = read(&file.to_string_lossy());
    for (name, table) in tables {
        let begin = format!("<!-- bench/run: {name} -->\n");
        let at = text.find(&begin).unwrap_or_else(|| panic!("{}: no mark {begin}", file.display())) + begin.len();
        let end =
            at + text[at..].find("<!-- end -->").unwrap_or_else(|| panic!("{}: {name} has no end", file.display()));
        text.replace_range(at..end, table);
    }
    write(file, &text);
}

fn write(file: &Path, text: &str) {
    fs::write(file, text).unwrap_or_else(|e| panic!("{}: {e}", file.display()));
}

fn read(file: &str) -> String {
    fs::read_to_string(file).unwrap_or_else(|e| panic!("{file}: {e}"))
}

fn this_program() -> String {
    std::env::current_exe().expect("the path of this program").to_string_lossy().into_owned()
}

fn in_a_process(program: &str) -> Vec<Measured> {
    let run = Command::new(program).arg(ONCE).output().expect("a process");
    assert!(run.status.success(), "{}", String::from_utf8_lossy(&run.stderr));
    String::from_utf8_lossy(&run.stdout).lines().map(measured).collect()
}

fn measured(line: &str) -> Measured {
    let numbers: Vec<f64> = line.split(' ').map(|n| n.parse().expect("a number")).collect();
    let [ours, theirs, unlocked, limit, ratio, unlocked_ratio, speed] = numbers[..] else {
        panic!("seven numbers: {line}")
    };
    Measured { ours, theirs, unlocked, limit, ratio, unlocked_ratio, speed }
}
