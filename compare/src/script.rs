//! A script that grows while it is played on the original.
use crate::entry::Entry;
use crate::player::{Mode, Played, Player};
use crate::tally::Tally;
use crate::text::Text;

pub struct Script {
    pub player: Player,
    pub lines: Vec<String>,
    /// The places in `lines` of those that are answered, and the original's answers.
    pub answered: Vec<usize>,
    pub answers: Text,
    /// The place in `lines` where each list of calls begins.
    pub starts: Vec<usize>,
}

impl Script {
    pub fn new(mode: Mode) -> Script {
        Script {
            player: Player::new(mode),
            lines: Vec::new(),
            answered: Vec::new(),
            answers: Text::default(),
            starts: Vec::new(),
        }
    }

    /// Plays a line and keeps it, unless it is outside the common ground.
    pub fn play(&mut self, line: &str, tally: &mut Tally) -> Result<(), Entry> {
        let before = self.answers.0.len();
        match self.player.line(line.as_bytes(), &mut self.answers) {
            Played::Outside(entry) => return Err(entry),
            Played::Passed => {}
            Played::Written => {
                tally.count(line, &self.answers.0[before..]);
                self.answered.push(self.lines.len());
            }
        }
        self.lines.push(line.to_string());
        Ok(())
    }
}

pub fn text_of(lines: &[String]) -> Vec<u8> {
    lines.iter().flat_map(|line| [line.as_bytes(), b"\n"].concat()).collect()
}
