//! Makes a list that differs as small as it can be.
use crate::compare::first_difference;
use crate::player::{Mode, Played, Player};
use crate::replay::Replay;
use crate::script::text_of;
use crate::sides;
use crate::text::Text;
use std::io;

/// So many shorter lists are tried at most.
const TRIES: u32 = 4000;

struct Shrinker<'a> {
    replay: &'a Replay,
    tries: u32,
}

/// Prints the smallest list and both programs' answers. The lists before it are kept if it does not differ without them.
pub fn print_smallest(replay: &Replay, (before, list): (&[String], &[String])) -> io::Result<()> {
    let mut shrinker = Shrinker { replay, tries: TRIES };
    let mut lines = list.to_vec();
    if !shrinker.differs(&lines)? {
        lines = [before, list].concat();
    }
    loop {
        let before = lines.clone();
        lines = fewer(lines, &mut |lines| shrinker.still_differs(lines))?;
        lines = shrinker.smaller_numbers(lines)?;
        if lines == before || shrinker.tries == 0 {
            break;
        }
    }
    sides::print(replay, &text_of(&lines), Mode::Common)
}

/// Leaves out what can be left out of a list that differs, at first much at a time.
pub fn fewer<T: Clone>(mut list: Vec<T>, differs: &mut impl FnMut(&[T]) -> io::Result<bool>) -> io::Result<Vec<T>> {
    let mut width = list.len().div_ceil(2);
    while width > 0 {
        let mut at = 0;
        while at < list.len() {
            let end = (at + width).min(list.len());
            let fewer = [&list[..at], &list[end..]].concat();
            match differs(&fewer)? {
                true => list = fewer,
                false => at = end,
            }
        }
        width /= 2;
    }
    Ok(list)
}

impl Shrinker<'_> {
    /// Do the programs differ on the lines before the first one outside the common ground?
    fn differs(&mut self, lines: &[String]) -> io::Result<bool> {
        self.tries = self.tries.saturating_sub(1);
        let mut player = Player::new(Mode::Common);
        let mut answers = Text::default();
        let common = |line: &&String| !matches!(player.line(line.as_bytes(), &mut answers), Played::Outside(_));
        let lines: Vec<String> = lines.iter().take_while(common).cloned().collect();
        let ours = self.replay.play(text_of(&lines))?;
        Ok(first_difference(&answers.0, &ours).is_some())
    }

    /// The same, while there are tries left.
    fn still_differs(&mut self, lines: &[String]) -> io::Result<bool> {
        Ok(self.tries > 0 && self.differs(lines)?)
    }

    /// Leaves numbers out or makes them smaller.
    fn smaller_numbers(&mut self, mut lines: Vec<String>) -> io::Result<Vec<String>> {
        for at in 0..lines.len() {
            let mut word = lines[at].split_whitespace().count();
            while word > 1 && self.tries > 0 {
                word -= 1;
                self.smaller_word(&mut lines, at, word)?;
            }
        }
        Ok(lines)
    }

    fn smaller_word(&mut self, lines: &mut [String], at: usize, word: usize) -> io::Result<()> {
        let words: Vec<String> = lines[at].split_whitespace().map(String::from).collect();
        let Ok(number) = words[word].parse::<u32>() else { return Ok(()) };
        let smaller = [None, Some(0), Some(1), Some(number / 2), Some(number.saturating_sub(1))];
        for candidate in smaller.into_iter().filter(|&n| n.is_none_or(|n| n < number)) {
            let mut changed = words.clone();
            match candidate {
                None => drop(changed.remove(word)),
                Some(n) => changed[word] = n.to_string(),
            }
            let old = std::mem::replace(&mut lines[at], changed.join(" "));
            if self.differs(lines)? {
                return Ok(());
            }
            lines[at] = old;
        }
        Ok(())
    }
}
