//! Sheets of windows, and the same bytes read again.
use super::{Maker, Step};

impl Maker<'_> {
    /// Now and then with a short buffer, and read with a short list.
    pub fn sheet(&mut self) -> Step {
        let id = self.id();
        if self.random.chance(150) {
            let room = self.random.pick(&[0, 1, 8, 9, 20, 29, 2_048, 2_049]);
            self.say(&format!("lend-sheet {room}"))?;
        }
        let before = self.script.answers.0.len();
        self.say(&format!("sheet {id}"))?;
        let answer = String::from_utf8_lossy(&self.script.answers.0[before..]).into_owned();
        let mut bytes: Vec<u32> = answer.split_whitespace().skip(2).filter_map(|byte| byte.parse().ok()).collect();
        self.tally.at_most("bytes of a sheet", bytes.len());
        if self.random.chance(300) {
            self.damage(&mut bytes);
        }
        if self.random.chance(150) {
            let room = self.random.pick(&[0, 3, 4, 8, 15, 16, 7_812, 7_813]);
            self.say(&format!("lend-list {room}"))?;
        }
        let bytes: String = bytes.iter().map(|byte| format!(" {byte}")).collect();
        self.say(&format!("read-sheet{bytes}"))
    }

    /// One byte is another, one follows, or the last is missing.
    fn damage(&mut self, bytes: &mut Vec<u32>) {
        let byte = self.random.pick(&[0, 1, 4, 8, 128, 255, 256]);
        match self.random.from_to(0, 2) {
            0 if !bytes.is_empty() => {
                let place = self.random.from_to(0, bytes.len() as u32 - 1) as usize;
                bytes[place] = byte;
            }
            1 => bytes.push(byte),
            _ => drop(bytes.pop()),
        }
    }
}
