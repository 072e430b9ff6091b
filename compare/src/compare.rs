//! Plays a station and random lists on both programs until enough calls were compared.
use crate::lists::{append, Scene};
use crate::player::Mode;
use crate::random::Random;
use crate::replay::Replay;
use crate::script::{text_of, Script};
use crate::shrink;
use crate::station;
use crate::tally::Tally;
use std::io;

/// So many lines go to our program at a time.
const CHUNK: usize = 40_000;

/// Compares until so many calls in the common ground were alike. Prints the table, or the smallest list that differs.
pub fn run(replay: &Replay, calls: u64, seed: u64) -> io::Result<bool> {
    let mut random = Random::new(seed);
    let mut tally = Tally::default();
    if !is_station_alike(replay, &mut tally)? {
        return Ok(false);
    }
    while tally.calls < calls {
        let script = chunk(&mut random, &mut tally, calls);
        let ours = replay.play(text_of(&script.lines))?;
        if let Some(place) = first_difference(&script.answers.0, &ours) {
            println!("a difference, seed {seed}, after {} lists; the smallest list that differs:", tally.lists);
            shrink::print_smallest(replay, list_at(&script, place))?;
            return Ok(false);
        }
    }
    tally.print();
    println!("{} calls in common ground, 0 differences", tally.calls);
    Ok(true)
}

/// Its lines are too long to be printed.
fn is_station_alike(replay: &Replay, tally: &mut Tally) -> io::Result<bool> {
    let mut script = Script::new(Mode::Common);
    for line in station::lines() {
        let played = script.play(&line, tally);
        played.map_err(|entry| io::Error::other(format!("a station is not in the common ground: {}", entry.text())))?;
    }
    let ours = replay.play(text_of(&script.lines))?;
    let place = first_difference(&script.answers.0, &ours);
    if let Some(answer) = place {
        println!("a difference in answer {} of a station with windows of 800 by 480", answer + 1);
    }
    Ok(place.is_none())
}

fn chunk(random: &mut Random, tally: &mut Tally, calls: u64) -> Script {
    let mut script = Script::new(Mode::Common);
    while script.lines.len() < CHUNK && tally.calls < calls {
        let scene = Scene::random(random);
        append(random, &mut script, tally, scene);
    }
    tally.saw(&script.player.shadow.seen);
    script
}

/// The number of the first line in which the texts differ.
pub fn first_difference(one: &[u8], other: &[u8]) -> Option<usize> {
    if one == other {
        return None;
    }
    let mut others = other.split_inclusive(|&byte| byte == b'\n');
    let same = one.split_inclusive(|&byte| byte == b'\n').take_while(|line| others.next() == Some(line));
    Some(same.count())
}

/// The lists before the answer's list, and its list up to the line that it answers.
fn list_at(script: &Script, answer: usize) -> (&[String], &[String]) {
    let line = script.answered.get(answer).copied().unwrap_or(script.lines.len() - 1);
    let start = script.starts.iter().rev().find(|&&start| start <= line).copied().unwrap_or(0);
    (&script.lines[..start], &script.lines[start..=line])
}
