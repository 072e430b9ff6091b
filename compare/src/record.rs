//! Writes a script and the answers to it, for the gate: the original's, and those that stand beside calls that the original has not.
use crate::lists::{append, Scene};
use crate::player::Mode;
use crate::random::Random;
use crate::script::{text_of, Script};
use crate::tally::Tally;
use crate::wide;
use std::fs;
use std::io;

/// The script ends with the first list that reaches so many lines.
const LINES: usize = 4000;

/// Records the lines of the first file, those of a wide window, random lists, and then the lines of the last files with their answers.
pub fn write(first: &str, last: &[&str], stdin: &str, stdout: &str) -> io::Result<()> {
    let mut script = Script::new(Mode::Common);
    let mut tally = Tally::default();
    for line in fs::read_to_string(first)?.lines() {
        let played = script.play(line, &mut tally);
        played.map_err(|entry| {
            io::Error::other(format!("{first}: {line}: not in the common ground: {}", entry.text()))
        })?;
    }
    for line in wide::lines() {
        let played = script.play(&line, &mut tally);
        played.map_err(|entry| {
            io::Error::other(format!("a wide window is not in the common ground: {}", entry.text()))
        })?;
    }
    let mut seed = 0;
    while script.lines.len() < LINES {
        seed += 1;
        let mut random = Random::new(seed);
        let kind = random.pick(&[Scene::small as fn(&mut Random) -> Scene, Scene::many]);
        let scene = Scene { actions: 40, ..kind(&mut random) };
        append(&mut random, &mut script, &mut tally, scene);
    }
    let (mut calls, mut said) = (text_of(&script.lines), script.answers.0);
    for file in last {
        let (lines, answers) = beside(file)?;
        calls.extend(text_of(&lines));
        said.extend(text_of(&answers));
    }
    fs::write(stdin, calls)?;
    fs::write(stdout, said)
}

/// The lines of a script, and the answers that stand below them, each behind `#= `.
fn beside(file: &str) -> io::Result<(Vec<String>, Vec<String>)> {
    let (mut lines, mut answers) = (Vec::new(), Vec::new());
    for line in fs::read_to_string(file)?.lines() {
        match line.strip_prefix("#= ") {
            Some(answer) => answers.push(answer.to_string()),
            None => lines.push(line.to_string()),
        }
    }
    Ok((lines, answers))
}
