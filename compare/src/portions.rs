//! Whether a redraw in portions leaves what an undivided one leaves. Our program alone plays each random list twice, once with walks in
//! place of redraws; every other line must get the same answer in both. The lists do not keep to the common ground.
use crate::call::{read, Call, Line};
use crate::lists::{append, Scene};
use crate::places::Places;
use crate::player::{Mode, Player};
use crate::random::Random;
use crate::replay::Replay;
use crate::script::{text_of, Script};
use crate::tally::Tally;
use crate::text::Text;
use std::io;

/// Lines, and of each whether it draws. Those that draw are accepted, so that their answer is 0.
#[derive(Default)]
struct Half {
    lines: Vec<String>,
    draws: Vec<bool>,
}

impl Half {
    fn say(&mut self, line: &str) {
        self.lines.push(line.to_string());
        self.draws.push(false);
    }

    fn draw(&mut self, line: &str, times: usize) {
        self.lines.extend(vec![line.to_string(); times]);
        self.draws.extend(vec![true; times]);
    }

    /// What must be the same in both halves: the answers, each with its line's place, but for a 0 of a line that draws.
    fn answers(&self, replay: &Replay) -> io::Result<Vec<(usize, String)>> {
        let text = replay.play(text_of(&self.lines))?;
        let answers: Vec<String> = String::from_utf8_lossy(&text).lines().map(String::from).collect();
        if answers.len() != self.lines.len() {
            return Err(io::Error::other(format!("{} lines got {} answers", self.lines.len(), answers.len())));
        }
        Ok(answers.into_iter().enumerate().filter(|(place, answer)| answer != "0" || !self.draws[*place]).collect())
    }
}

#[derive(Default)]
struct Pair {
    undivided: Half,
    divided: Half,
}

/// An accepted redraw, the lines of a walk that stands for it, and where the windows are.
struct Walk<'a> {
    redraw: &'a str,
    begin: String,
    portion: String,
    places: &'a Places,
}

/// Plays so many lists. Prints how many portions there were, or the list that differs.
pub fn run(replay: &Replay, lists: u64, seed: u64) -> io::Result<bool> {
    let mut random = Random::new(seed);
    let mut portions = 0;
    for list in 1..=lists {
        let pair = Pair::random(&mut random);
        let (undivided, divided) = (pair.undivided.answers(replay)?, pair.divided.answers(replay)?);
        let differ = |(one, other): &(&(usize, String), &(usize, String))| one.1 != other.1;
        if let Some((one, other)) = undivided.iter().zip(&divided).find(differ) {
            println!("a difference, seed {seed}, list {list}:\n{}", pair.divided.lines[..=other.0].join("\n"));
            println!("answer: {}\nwith undivided redraws: {}", other.1, one.1);
            return Ok(false);
        }
        if undivided.len() != divided.len() {
            println!("seed {seed}, list {list}: {} answers, and {} in portions", undivided.len(), divided.len());
            return Ok(false);
        }
        portions += pair.divided.lines.iter().filter(|line| line.starts_with("portion")).count();
    }
    println!("{portions} portions in {lists} lists, 0 differences");
    Ok(true)
}

impl Pair {
    fn random(random: &mut Random) -> Pair {
        let mut script = Script::new(Mode::All);
        let scene = Scene::random(random);
        append(random, &mut script, &mut Tally::default(), scene);
        let mut pair = Pair::default();
        let mut player = Player::new(Mode::All);
        for line in &script.lines {
            pair.line(random, &mut player, line);
        }
        pair
    }

    /// Left out are lines that are no calls, whose answer is their number, and `lend-screen`, which a walk without portions would not use up.
    fn line(&mut self, random: &mut Random, player: &mut Player, line: &str) {
        let Line::Call(call) = read(line.as_bytes()) else { return };
        if let Call::LendScreen(_) = call {
            return;
        }
        let mut answer = Text::default();
        player.line(line.as_bytes(), &mut answer);
        match call {
            Call::Redraw(forced, w, h) if answer.0 == b"0\n" => {
                let (begin, portion) = (format!("begin {}", u32::from(forced)), format!("portion {w} {h}"));
                self.redraw(random, &Walk { redraw: line, begin, portion, places: &player.shadow.places });
            }
            _ => self.both(line),
        }
    }

    fn both(&mut self, line: &str) {
        self.undivided.say(line);
        self.divided.say(line);
    }

    /// After some portions something comes in between.
    fn redraw(&mut self, random: &mut Random, walk: &Walk) {
        let shown = walk.places.order.len();
        let some = random.from_to(0, shown.saturating_sub(1) as u32) as usize;
        self.divided.draw(&walk.begin, 1);
        self.divided.draw(&walk.portion, some);
        match random.from_to(0, 4) {
            0 => self.divided.draw(walk.redraw, 1),
            1 => {
                self.divided.draw(&walk.begin, 1);
                self.divided.draw(&walk.portion, shown);
            }
            2 if shown > 0 => self.send_back(walk, some),
            3 if shown > 0 => return self.write(random, walk, some),
            _ => {
                self.both("mousemove 1 1");
                self.divided.draw(&walk.portion, shown - some);
            }
        }
        self.undivided.draw(walk.redraw, 1);
    }

    /// A window is moved to where it lies: all stays, but a full redraw is owed.
    fn send_back(&mut self, walk: &Walk, place: usize) {
        let id = walk.places.order[place];
        let at = walk.places.at[id];
        self.both(&format!("move {id} {} {}", at.left, at.top));
        self.divided.draw(&walk.portion, walk.places.order.len());
    }

    /// What is written to a window before its portion is drawn by it; what is written later is for the next redraw.
    fn write(&mut self, random: &mut Random, walk: &Walk, some: usize) {
        let shown = walk.places.order.len();
        let place = random.from_to(0, shown as u32 - 1) as usize;
        let id = walk.places.order[place];
        self.undivided.draw(walk.redraw, usize::from(place < some));
        self.both(&format!("fill {id} 0 0 2 2 {}", random.from_to(1, 99)));
        self.both(&format!("mark {id}"));
        self.undivided.draw(walk.redraw, usize::from(place >= some));
        self.divided.draw(&walk.portion, shown - some);
    }
}
