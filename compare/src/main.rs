//! Compares the library with the original by playing the same call scripts on both.
mod area;
mod bare;
mod busiest;
mod call;
mod compare;
mod damage;
mod dims;
mod displays;
mod drags;
mod entry;
mod events;
mod hits;
mod lists;
mod look;
mod looks;
mod pairs;
mod panels;
mod panics;
mod picture;
mod places;
mod player;
mod portions;
mod questions;
mod random;
mod record;
mod replay;
mod runs;
mod script;
mod shadow;
mod share;
mod sheet;
mod sheets;
mod shrink;
mod sides;
mod stale;
mod standing;
mod station;
mod surfaces;
mod tally;
mod text;
mod times;
mod waits;
mod who;
mod wide;

use player::{Mode, Player};
use replay::Replay;
use std::env;
use std::fs;
use std::io::{self, Read, Write};
use std::process::ExitCode;
use text::Text;

type Run = fn(&Replay, u64, u64) -> io::Result<bool>;

/// What plays random lists: its word, what is counted, and the function that takes how many of these there are and a seed.
const RANDOM: [(&str, &str, Run); 7] = [
    ("random", "CALLS", compare::run),
    ("portions", "LISTS", portions::run),
    ("busiest", "RUNS", runs::run),
    ("panels", "PAIRS", panels::run),
    ("drags", "LISTS", drags::run),
    ("look", "LOOKS", looks::run),
    ("sheets", "SHEETS", sheets::run),
];

const OTHERS: &str = "compare sides REPLAY all|unasked FILE
compare record FIRST LAST… STDIN STDOUT
compare play all|unasked";

fn usage() -> io::Error {
    let lines = RANDOM.map(|(word, counted, _)| format!("compare {word} REPLAY {counted} SEED\n"));
    io::Error::other(lines.concat() + OTHERS)
}

fn main() -> ExitCode {
    panics::keep();
    let words: Vec<String> = env::args().skip(1).collect();
    let words: Vec<&str> = words.iter().map(String::as_str).collect();
    match command(&words) {
        Ok(true) => ExitCode::SUCCESS,
        Ok(false) => ExitCode::FAILURE,
        Err(error) => {
            eprintln!("{error}");
            ExitCode::from(2)
        }
    }
}

fn command(words: &[&str]) -> io::Result<bool> {
    match *words {
        ["sides", replay, word, file] => {
            let script = fs::read(file).map_err(|e| io::Error::other(format!("{file}: {e}")))?;
            sides::print(&Replay(replay.into()), &script, mode(word)?).map(|()| true)
        }
        ["record", first, ref last @ .., stdin, stdout] => record::write(first, last, stdin, stdout).map(|()| true),
        ["play", word] => play(mode(word)?).map(|()| true),
        [word, replay, many, seed] => {
            let (.., run) = RANDOM.into_iter().find(|row| row.0 == word).ok_or_else(usage)?;
            run(&Replay(replay.into()), number(many)?, number(seed)?)
        }
        _ => Err(usage()),
    }
}

fn mode(word: &str) -> io::Result<Mode> {
    match word {
        "all" => Ok(Mode::All),
        "unasked" => Ok(Mode::Unasked),
        _ => Err(usage()),
    }
}

fn number(word: &str) -> io::Result<u64> {
    let number = word.parse().ok().filter(|&n| n > 0);
    number.ok_or_else(|| io::Error::other(format!("a whole number from 1 on, and not {word}")))
}

/// Plays the standard input on the original.
fn play(mode: Mode) -> io::Result<()> {
    let mut script = Vec::new();
    io::stdin().read_to_end(&mut script)?;
    let mut player = Player::new(mode);
    let mut out = Text::default();
    for line in script.split(|&b| b == b'\n') {
        player.line(line, &mut out);
    }
    io::stdout().write_all(&out.0)
}
