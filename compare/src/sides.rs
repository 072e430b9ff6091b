//! Prints a script with both programs' answers beside each line.
use crate::player::{Mode, Played, Player};
use crate::replay::Replay;
use crate::text::Text;
use std::io;

/// A longer answer is cut.
const WIDTH: usize = 100;

pub fn print(replay: &Replay, script: &[u8], mode: Mode) -> io::Result<()> {
    let ours = replay.play(script.to_vec())?;
    let mut ours = ours.split(|&byte| byte == b'\n');
    println!("  {:34} | {:40} | ours", "call", "original");
    let mut player = Player::new(mode);
    for line in script.split(|&byte| byte == b'\n') {
        let mut answer = Text::default();
        match player.line(line, &mut answer) {
            Played::Passed => continue,
            Played::Outside(entry) => answer.line(&format!("({})", entry.text())),
            Played::Written => {}
        }
        let theirs = answer.0.trim_ascii_end();
        let ours = ours.next().unwrap_or_default();
        let mark = if theirs == ours { ' ' } else { '*' };
        println!("{mark} {:34} | {:40} | {}", cut(line), cut(theirs), cut(ours));
    }
    Ok(())
}

fn cut(text: &[u8]) -> String {
    let text = String::from_utf8_lossy(text);
    match text.char_indices().nth(WIDTH) {
        Some((end, _)) => format!("{}…", &text[..end]),
        None => text.to_string(),
    }
}
