//! Wrong stores, screens and lists, numbers at the limits, and lines that are no calls.
use super::no_calls::NO_CALLS;
use super::{Maker, Step};

impl Maker<'_> {
    pub fn wrong(&mut self) -> Step {
        match self.random.from_to(0, 12) {
            0..=1 => self.wrong_store(),
            2..=3 => self.wrong_screen(),
            4..=5 => self.wrong_list(),
            6 => self.too_many_windows(),
            7 => self.limits(),
            8 => self.wrong_start(),
            9..=10 => self.changed_line(),
            _ => self.no_call(),
        }
    }

    /// A refused start gives a session with C = 1.
    fn wrong_start(&mut self) -> Step {
        let c = self.random.pick(&[0u32, 1_048_577, 4_294_967_295]);
        self.say(&format!("start {c}"))?;
        self.say("create")?;
        self.say("resize 0 1 1")?;
        self.say("fill 0 0 0 1 1 9")?;
        self.say("resize 0 2 1")?;
        self.say("pixels 0")?;
        self.say(&format!("start {}", self.scene.c))
    }

    fn wrong_store(&mut self) -> Step {
        let right = 16 * self.scene.c;
        let wrong = self.random.pick(&[0, 1, right - 1, right.saturating_sub(16), right + 1, right + 16, 1_048_577]);
        self.say(&format!("lend {wrong}"))?;
        let _ = self.fill();
        let _ = self.blit();
        let _ = self.resize();
        let _ = self.maximise();
        let _ = self.update_dims();
        self.redraw()?;
        let _ = self.portion();
        let id = self.id();
        if self.scene.c < 1000 {
            self.say(&format!("pixels {id}"))?;
        }
        let _ = self.event();
        self.say(&format!("lend {right}"))
    }

    fn wrong_screen(&mut self) -> Step {
        let (w, h) = self.scene.screen;
        let wrong = self.random.pick(&[0, w * h - 1, w * h, w * h + 1, 3_072_000, 3_072_001]);
        self.say(&format!("lend-screen {wrong}"))?;
        if self.random.chance(200) {
            self.no_call()?;
        }
        match self.random.from_to(0, 5) {
            0 => self.say("redraw 1 32768 1"),
            1 => self.say("redraw 1 4294967295 4294967295"),
            2 => self.say("redraw 0 0 0"),
            3 => self.say(&format!("portion {w} {h}")),
            _ => self.say(&format!("redraw 1 {w} {h}")),
        }
    }

    fn wrong_list(&mut self) -> Step {
        let id = self.id();
        let room = self.random.pick(&[0, 1, 3, 4, 5, 7, 8, 12, 15, 16, 1_984, 7_812, 7_813]);
        self.say(&format!("lend-list {room}"))?;
        if self.random.chance(300) {
            self.hits()?;
        }
        if self.random.chance(300) {
            self.sheet()?;
        }
        self.say(&format!("visible {id}"))?;
        self.say(&format!("visible {id}"))
    }

    fn too_many_windows(&mut self) -> Step {
        for _ in 0..17 {
            self.say("create")?;
        }
        Ok(())
    }

    fn limits(&mut self) -> Step {
        let id = self.id();
        let c = self.scene.c;
        let line = match self.random.from_to(0, 12) {
            0 => format!("move {id} 32767 32767"),
            1 => format!("move {id} 32767 32768"),
            2 => format!("resize {id} 1 {c}"),
            3 => format!("resize {id} 1 {}", c + 1),
            4 => format!("resize {id} 0 32767"),
            5 => format!("resize {id} 32768 0"),
            6 => format!("fill {id} 32767 0 32767 32767 5"),
            7 => format!("mousemove 32768 {c}"),
            8 => "redraw 1 32767 11".to_string(),
            9 => "redraw 1 12 32000".to_string(),
            10 => "display 0 32000 1 768".to_string(),
            11 => "display-at 32767 32768".to_string(),
            _ => format!("blit {id} 0 0 32767 32767 1 1 2 3"),
        };
        self.say(&line)
    }

    /// A line of the script with one letter changed, which may be a call or none.
    fn changed_line(&mut self) -> Step {
        let last = self.script.lines.len() - 1;
        let place = self.random.from_to(0, last as u32) as usize;
        let line = self.script.lines[place].clone();
        if line.is_empty() || line.len() > 200 || ["start", "lend", "picture"].iter().any(|word| line.contains(word)) {
            return self.most_numbers();
        }
        let mut letters: Vec<char> = line.chars().collect();
        let at = self.random.from_to(0, letters.len() as u32 - 1) as usize;
        let letter = self.random.pick(&[' ', ' ', '0', '9', '#', '-', '\t', '\0', '\r', 'e', '\u{e4}']);
        match self.random.from_to(0, 2) {
            0 => letters[at] = letter,
            1 => letters.insert(at, letter),
            _ => drop(letters.remove(at)),
        }
        self.say(&letters.into_iter().collect::<String>())
    }

    /// As many numbers as a line may have, or one more.
    fn most_numbers(&mut self) -> Step {
        if self.random.chance(900) {
            return Ok(());
        }
        let count = self.random.pick(&[4096, 4097]);
        let numbers = vec!["7"; count].join(" ");
        match self.random.from_to(0, 5) {
            0 => self.say(&format!("scanline 64 64 63 0 64 {numbers}")),
            1 => self.say(&format!("region 0 0 64 64 64 {numbers}")),
            2 => self.say(&format!("set-scanline 64 63 0 0 64 64 {numbers}")),
            3 => self.say(&format!("hits {numbers}")),
            4 => self.say(&format!("read-sheet {numbers}")),
            _ => self.say(&format!("blit 0 0 0 2 2 2 {numbers}")),
        }
    }

    /// A line that makes no call.
    pub fn no_call(&mut self) -> Step {
        let line = self.random.pick(&NO_CALLS);
        self.say(line)
    }
}
