//! Whether a drag leaves on the screen what a move leaves. Our program alone plays each random list twice, once with a
//! move in place of every drag. Every line must get the same answer, but for a portion, which is answered as the walk
//! of its play stands, and for screens, which must be equal where demand 3 says what they hold (`Judge`).
//!
//! Tried on wrong programs, 200 lists each. Found were drags that repair the window itself not at all, or only in the
//! damage that it has; that repair no lower window, one alone, all but the lowest, the higher ones, or those under the
//! new place; that add an area which is not relative, mark without adding it, or add it without marking; that leave a
//! walk on, or owe nothing in it; that send a walk back for a hidden window; that keep the flag of a maximised window;
//! that set x alone; and that ask 5 before 3. Not found, since the screens are the same: those that draw too much, as
//! all of a lower window or everything, and those that mark a hidden window.
mod changes;
mod judge;
mod kinds;
mod list;
mod walks;
mod writes;

use crate::random::Random;
use crate::replay::Replay;
use crate::script::text_of;
use crate::shrink::fewer;
use judge::Judge;
use kinds::Kinds;
use std::io;

/// So many lists go to our program at a time.
const CHUNK: u64 = 50;

/// The answers to a list, and to the same with moves.
struct Plays {
    dragged: Vec<String>,
    moved: Vec<String>,
}

/// Compares so many lists. Prints their kinds, or the smallest list found that differs.
pub fn run(replay: &Replay, lists: u64, seed: u64) -> io::Result<bool> {
    let mut random = Random::new(seed);
    let mut kinds = Kinds::default();
    let mut done = 0;
    while done < lists {
        let chunk: Vec<Vec<String>> = (0..CHUNK.min(lists - done)).map(|_| list::random(&mut random)).collect();
        let plays = Plays::of(replay, &chunk.concat())?;
        let mut first = 0;
        for lines in chunk {
            done += 1;
            if plays.difference(first, &lines, &mut kinds).is_some() {
                println!("a difference, seed {seed}, list {done}; the smallest list found that differs:");
                print(replay, &fewer(lines, &mut |lines| differs(replay, lines))?)?;
                return Ok(false);
            }
            first += lines.len();
        }
    }
    kinds.print();
    println!("{lists} lists, {} redraws compared, 0 differences", kinds.compared());
    Ok(true)
}

impl Plays {
    fn of(replay: &Replay, lines: &[String]) -> io::Result<Plays> {
        let moves: Vec<String> = lines.iter().map(|line| line.replacen("drag", "move", 1)).collect();
        Ok(Plays { dragged: answers(replay, lines)?, moved: answers(replay, &moves)? })
    }

    /// The place, in a list whose answers begin at `first`, of the first line whose answers differ and must not.
    fn difference(&self, first: usize, lines: &[String], kinds: &mut Kinds) -> Option<usize> {
        let mut judge = Judge::new(kinds);
        let answers = self.dragged[first..].iter().zip(&self.moved[first..]);
        lines.iter().zip(answers).position(|(line, (dragged, moved))| judge.differ(line, [dragged, moved]))
    }
}

fn answers(replay: &Replay, lines: &[String]) -> io::Result<Vec<String>> {
    let text = replay.play(text_of(lines))?;
    let answers: Vec<String> = String::from_utf8_lossy(&text).lines().map(String::from).collect();
    if answers.len() != lines.len() {
        return Err(io::Error::other(format!("{} lines got {} answers", lines.len(), answers.len())));
    }
    Ok(answers)
}

fn differs(replay: &Replay, lines: &[String]) -> io::Result<bool> {
    Ok(Plays::of(replay, lines)?.difference(0, lines, &mut Kinds::default()).is_some())
}

/// Prints a list up to the line that differs, and both answers to that.
fn print(replay: &Replay, lines: &[String]) -> io::Result<()> {
    let plays = Plays::of(replay, lines)?;
    if let Some(place) = plays.difference(0, lines, &mut Kinds::default()) {
        println!("{}", lines[..=place].join("\n"));
        println!("answer: {}\nwith moves: {}", plays.dragged[place], plays.moved[place]);
    }
    Ok(())
}
