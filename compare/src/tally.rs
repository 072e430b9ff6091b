//! What was compared, for the table at the end.
use crate::dims::KINDS;
use crate::entry::Entry;
use crate::shadow::Seen;
use std::collections::BTreeMap;

#[derive(Default)]
pub struct Tally {
    words: BTreeMap<String, u64>,
    answers: BTreeMap<String, u64>,
    entries: BTreeMap<Entry, u64>,
    shares: BTreeMap<String, u64>,
    writes: BTreeMap<String, u64>,
    points: BTreeMap<String, u64>,
    sheets: BTreeMap<String, u64>,
    stale: BTreeMap<String, u64>,
    /// Calls in the common ground: accepted, or refused by 10, 11 or 12, and so made on both. A begin is nothing to the original.
    pub calls: u64,
    pub lists: u64,
    seen: Seen,
    longest: BTreeMap<&'static str, usize>,
}

/// Lines whose calls write pixels and count those that they altered.
const WRITES: [&str; 4] = ["fill", "blit", "fill-scanline", "set-scanline"];

/// Lines that make no call of the original.
const NO_CALL: [&str; 19] = [
    "lend",
    "lend-screen",
    "lend-list",
    "lend-target",
    "lend-sheet",
    "screen",
    "pixels",
    "picture",
    "busiest",
    "share",
    "hits",
    "look",
    "look-fit",
    "sheet",
    "read-sheet",
    "stale",
    "waiting",
    "window",
    "session",
];

impl Tally {
    /// Counts a line and its answer.
    pub fn count(&mut self, line: &str, answer: &[u8]) {
        let written = String::from_utf8_lossy(answer);
        let answer = written.split_whitespace().next().unwrap_or("");
        let word = line.split_whitespace().next().unwrap_or("");
        if matches!(answer, "?" | "!") {
            return add(&mut self.answers, answer);
        }
        add(&mut self.words, word);
        if word == "share" {
            add(&mut self.shares, how_much(written.trim_end()));
        }
        if WRITES.contains(&word) {
            add(&mut self.writes, altered(&written));
        }
        if word == "hits" {
            self.points(&written);
        }
        if matches!(word, "sheet" | "read-sheet") {
            add(&mut self.sheets, &format!("{word}, {}", listed(written.trim_end())));
        }
        if word == "stale" {
            add(&mut self.stale, &how_stale(line, written.trim_end()));
        }
        if NO_CALL.contains(&word) {
            return;
        }
        add(&mut self.answers, answer);
        self.calls += u64::from(matches!(answer, "0" | "10" | "11" | "12"));
    }

    /// Counts the points of a `hits`, or how it was refused.
    fn points(&mut self, written: &str) {
        let numbers: Vec<&str> = written.split_whitespace().collect();
        if numbers[0] != "0" {
            return add(&mut self.points, &format!("refused by {}", numbers[0]));
        }
        for answer in numbers[1..].chunks(3) {
            add(&mut self.points, if answer[0] == "16" { "nobody's" } else { "a window's" });
        }
    }

    /// Counts a list that a call under the entry ended.
    pub fn ended_by(&mut self, entry: Entry) {
        *self.entries.entry(entry).or_default() += 1;
    }

    /// The most rectangles in a visible list, the most windows shown, and the like.
    pub fn at_most(&mut self, what: &'static str, count: usize) {
        let most = self.longest.entry(what).or_default();
        *most = count.max(*most);
    }

    pub fn saw(&mut self, seen: &Seen) {
        self.seen.contained += seen.contained;
        self.seen.right += seen.right;
        self.seen.down += seen.down;
        self.seen.appended += seen.appended;
        self.seen.changed += seen.changed;
        self.seen.meeting += seen.meeting;
        self.seen.released.none += seen.released.none;
        self.seen.released.no_pixels += seen.released.no_pixels;
        self.seen.released.on += seen.released.on;
        self.seen.released.off += seen.released.off;
        self.seen.dims.iter_mut().zip(seen.dims).for_each(|(sum, count)| *sum += count);
    }

    pub fn print(&self) {
        println!("lines, by word:");
        self.words.iter().for_each(|(word, count)| println!("  {word:14} {count:9}"));
        println!("answers of calls, and `?` and `!` lines:");
        for answer in (0..=17).chain([20]).map(|answer| answer.to_string()).chain(["?".into(), "!".into()]) {
            println!("  {answer:14} {:9}", self.answers.get(&answer).unwrap_or(&0));
        }
        println!("shares in view:");
        self.shares.iter().for_each(|(how, count)| println!("  {how:14} {count:9}"));
        println!("writes, by the pixels that they altered:");
        self.writes.iter().for_each(|(how, count)| println!("  {how:14} {count:9}"));
        println!("points of `hits`, each a press of the original on a copy:");
        self.points.iter().for_each(|(whose, count)| println!("  {whose:14} {count:9}"));
        println!("sheets written and read:");
        self.sheets.iter().for_each(|(how, count)| println!("  {how:27} {count:9}"));
        println!("what is stale:");
        self.stale.iter().for_each(|(how, count)| println!("  {how:14} {count:9}"));
        println!("damage:");
        let seen = &self.seen;
        let damage = [("contained", seen.contained), ("merged right", seen.right), ("merged down", seen.down)];
        damage.iter().for_each(|(how, count)| println!("  {how:14} {count:9}"));
        println!("  {:14} {:9}", "appended", seen.appended);
        println!("releases, by the window that took the last MouseDown:");
        let released = &seen.released;
        let to = [
            ("none", released.none),
            ("no pixels", released.no_pixels),
            ("topmost", released.on),
            ("off, not made", released.off),
        ];
        to.iter().for_each(|(which, count)| println!("  {which:14} {count:9}"));
        println!("displays: positions asked for, and windows maximised and updated:");
        KINDS.iter().zip(seen.dims).for_each(|(kind, count)| println!("  {kind:44} {count:9}"));
        println!(
            "show, hide, drop, move, resize, layer, maximise, update-dims: {}, of these {} left windows that meet",
            seen.changed, seen.meeting
        );
        self.longest.iter().for_each(|(what, most)| println!("{what}: at most {most}"));
        println!("lists ended by a call outside the common ground:");
        for entry in Entry::ALL {
            println!("  {:44} {:9}", entry.text(), self.entries.get(&entry).unwrap_or(&0));
        }
        println!("{} lists", self.lists);
    }
}

/// What the answer to a `share` says.
fn how_much(written: &str) -> &'static str {
    match written {
        "3" => "refused by 3",
        "24" => "refused by 24",
        "0 0 0" => "none",
        "0 100 0" => "all",
        _ if written.ends_with(" 0") => "whole percent",
        _ => "with remainder",
    }
}

/// What the answer to a `sheet` or `read-sheet` says.
fn listed(written: &str) -> String {
    match written {
        "0 1 0" | "0 0" => "of no pixel".to_string(),
        _ => match written.split_once(' ') {
            Some(_) => "of pixels".to_string(),
            None => format!("refused by {written}"),
        },
    }
}

/// What the answer to a `stale` says.
fn how_stale(line: &str, written: &str) -> String {
    match written.split_once(' ') {
        None => format!("refused by {written}"),
        Some((_, "none")) => "nothing".to_string(),
        Some((_, rect)) if line.ends_with(rect) => "all of the area".to_string(),
        Some(_) => "a part of it".to_string(),
    }
}

/// What the answer to a write says.
fn altered(written: &str) -> &'static str {
    let mut words = written.split_whitespace();
    match (words.next(), words.next()) {
        (Some("0"), Some("0")) => "none",
        (Some("0"), Some(_)) => "some or all",
        _ => "refused",
    }
}

fn add(counts: &mut BTreeMap<String, u64>, key: &str) {
    match counts.get_mut(key) {
        Some(count) => *count += 1,
        None => drop(counts.insert(key.to_string(), 1)),
    }
}
