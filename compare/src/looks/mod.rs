//! Random looks at random windows, played on our program and held against the words of document 02 in f64.
mod floats;
mod lines;

use crate::call::{read, Call, Line};
use crate::compare::first_difference;
use crate::look::{is_allowed, Zoom};
use crate::player::{Mode, Played, Player};
use crate::random::Random;
use crate::replay::Replay;
use crate::script::text_of;
use crate::shrink::fewer;
use crate::text::Text;
use std::collections::BTreeMap;
use std::io;

/// So many looks are taken in a session.
const CHUNK: u64 = 400;

/// Compares so many looks. Prints their kinds, or the smallest list of lines found that differs.
pub fn run(replay: &Replay, looks: u64, seed: u64) -> io::Result<bool> {
    let mut random = Random::new(seed);
    let mut kinds = BTreeMap::new();
    let mut done = 0;
    while done < looks {
        let chunk = CHUNK.min(looks - done);
        let lines = lines::random(&mut random, chunk);
        let (rule, ours) = (ruled(&lines)?, replay.play(text_of(&lines))?);
        if first_difference(&rule, &ours).is_some() {
            println!(
                "a difference, seed {seed}, looks {} to {}; the smallest list found that differs:",
                done + 1,
                done + chunk
            );
            print(replay, &fewer(lines, &mut |lines| differs(replay, lines))?)?;
            return Ok(false);
        }
        count(&lines, &rule, &mut kinds);
        done += chunk;
    }
    kinds.iter().for_each(|(kind, times)| println!("{kind}: {times}"));
    println!("{looks} looks, 0 differences");
    Ok(true)
}

/// What the rule writes, on the windows of the original.
fn ruled(lines: &[String]) -> io::Result<Vec<u8>> {
    let mut player = Player::new(Mode::Common);
    let mut out = Text::default();
    for line in lines {
        if let Played::Outside(entry) = player.line(line.as_bytes(), &mut out) {
            return Err(io::Error::other(format!("{line}: not in the common ground: {}", entry.text())));
        }
    }
    Ok(out.0)
}

fn differs(replay: &Replay, lines: &[String]) -> io::Result<bool> {
    Ok(first_difference(&ruled(lines)?, &replay.play(text_of(lines))?).is_some())
}

fn print(replay: &Replay, lines: &[String]) -> io::Result<()> {
    let (rule, ours) = (ruled(lines)?, replay.play(text_of(lines))?);
    let (rule, ours) = (String::from_utf8_lossy(&rule), String::from_utf8_lossy(&ours));
    let mut ours = ours.lines();
    for (line, rule) in lines.iter().zip(rule.lines()) {
        println!("{line}\n  answer: {}\n  by document 02: {rule}", ours.next().unwrap_or(""));
    }
    Ok(())
}

/// Looks by their zoom and their answer, and by what the words of each answer need.
fn count(lines: &[String], answers: &[u8], kinds: &mut BTreeMap<String, u64>) {
    let answers = String::from_utf8_lossy(answers);
    for (line, answer) in lines.iter().zip(answers.lines()) {
        let Line::Call(Call::Look(look)) = read(line.as_bytes()) else { continue };
        let (answer, pixels) = answer.split_once(' ').unwrap_or((answer, ""));
        let zoom = match look.zoom {
            Zoom::Factor(factor) if is_allowed(&look) => format!("factor {factor}"),
            Zoom::Factor(_) => "factor or corner refused".to_string(),
            Zoom::Fit => "fit".to_string(),
        };
        let mut add = |kind: String| *kinds.entry(kind).or_insert(0) += 1;
        match answer {
            "0" if pixels.split(' ').all(|pixel| pixel == "0") => add(format!("{zoom}, all outside the window")),
            "0" if pixels.split(' ').any(|pixel| pixel == "0") => add(format!("{zoom}, in part outside the window")),
            "0" => add(format!("{zoom}, inside the window")),
            _ => add(format!("answered by {answer}")),
        }
    }
}
