//! Sheets of random windows, written and read again.
use super::agree::Kinds;
use super::closer::closer;
use super::scene::{self, Window};
use crate::player::{Mode, Player};
use crate::random::Random;
use crate::replay::Replay;
use crate::script::text_of;
use crate::sheet::{bytes, rects, Band};
use crate::shrink::fewer;
use std::io;

/// So many scenes go to our program at a time.
const CHUNK: u64 = 100;
/// The buffer that is lent where no line says another length.
const ROOM: u32 = 2_048;

/// Windows and their sheets, pixel by pixel; and how many bytes more than it has are lent for each, or fewer, if a line says so.
struct Scene {
    windows: Vec<Window>,
    sheets: Vec<Vec<Band>>,
    beyond: Option<i32>,
}

/// A line, and its answer by document 02 unless that is 0 or an id.
type Line = (String, Option<String>);

/// Writes the sheets of so many scenes. Gives how many sheets there were, if none differs.
pub fn run(replay: &Replay, scenes: u64, seed: u64) -> io::Result<Option<u64>> {
    let mut random = Random::new(seed);
    let mut kinds = Kinds::default();
    let mut original = Player::new(Mode::Common);
    let mut done = 0;
    while done < scenes {
        let chunk: Vec<Scene> = (0..CHUNK.min(scenes - done)).map(|_| Scene::random(&mut random)).collect();
        if !agree(&chunk, &mut kinds, &mut original) {
            return Ok(None);
        }
        if !compare(replay, &chunk)? {
            println!("seed {seed}, one of the scenes {} to {}", done + 1, done + chunk.len() as u64);
            return Ok(None);
        }
        done += chunk.len() as u64;
    }
    kinds.print();
    Ok(Some(kinds.sheets))
}

impl Scene {
    fn random(random: &mut Random) -> Scene {
        let beyond = random.chance(200).then(|| random.pick(&[-1, 0, 1, 50, -9, -2_048]));
        Scene::new(scene::random(random), beyond)
    }

    fn new(windows: Vec<Window>, beyond: Option<i32>) -> Scene {
        let sheets = (0..windows.len()).map(|id| scene::bands(&windows, id)).collect();
        Scene { windows, sheets, beyond }
    }

    /// The windows, their sheets, and one of no window.
    fn lines(&self) -> Vec<Line> {
        let mut lines: Vec<Line> = scene::lines(&self.windows).into_iter().map(|line| (line, None)).collect();
        for id in 0..self.windows.len() {
            lines.extend(self.sheet_lines(id));
        }
        lines.push((format!("sheet {}", self.windows.len()), Some("3".to_string())));
        lines
    }

    /// A sheet written, and read again.
    fn sheet_lines(&self, id: usize) -> Vec<Line> {
        let (bytes, rects) = (bytes(&self.sheets[id]), rects(&self.sheets[id]));
        let numbers: String = bytes.iter().map(|byte| format!(" {byte}")).collect();
        let listed: String = rects.iter().map(|number| format!(" {number}")).collect();
        let room = self.beyond.map(|by| (bytes.len() as i32 + by).clamp(0, ROOM as i32));
        let is_short = room.is_some_and(|room| (room as usize) < bytes.len());
        let answer = if is_short { "19".to_string() } else { format!("0 {}{numbers}", bytes.len()) };
        let lend = room.map(|room| (format!("lend-sheet {room}"), None));
        let read = (format!("read-sheet{numbers}"), Some(format!("0 {}{listed}", rects.len() / 4)));
        lend.into_iter().chain([(format!("sheet {id}"), Some(answer)), read]).collect()
    }
}

/// Holds the judges against each other.
fn agree(chunk: &[Scene], kinds: &mut Kinds, original: &mut Player) -> bool {
    for scene in chunk {
        if let Err(apart) = kinds.agree(&scene.windows, &scene.sheets, original) {
            println!("the judges do not agree on\n{}\n{apart}", scene::lines(&scene.windows).join("\n"));
            return false;
        }
    }
    true
}

/// Holds our program against the judges. Prints the smallest scene found that differs.
fn compare(replay: &Replay, chunk: &[Scene]) -> io::Result<bool> {
    let lines: Vec<Line> = chunk.iter().flat_map(Scene::lines).collect();
    if !differ(replay, &lines)? {
        return Ok(true);
    }
    for scene in chunk {
        if differ(replay, &scene.lines())? {
            print(replay, &smallest(replay, scene)?)?;
            return Ok(false);
        }
    }
    println!("a difference that no scene of these has alone");
    Ok(false)
}

fn answers(replay: &Replay, lines: &[Line]) -> io::Result<Vec<String>> {
    let lines: Vec<String> = lines.iter().map(|(line, _)| line.clone()).collect();
    let text = replay.play(text_of(&lines))?;
    Ok(String::from_utf8_lossy(&text).lines().map(String::from).collect())
}

fn differ(replay: &Replay, lines: &[Line]) -> io::Result<bool> {
    let ours = answers(replay, lines)?;
    let is_right = |(ours, (_, rule)): (&String, &Line)| match rule {
        Some(rule) => ours == rule,
        None => ours.starts_with('0'),
    };
    Ok(ours.len() != lines.len() || !ours.iter().zip(lines).all(is_right))
}

/// Fewer windows, which are closer together and smaller, as long as the scene still differs.
fn smallest(replay: &Replay, scene: &Scene) -> io::Result<Scene> {
    let mut differs = |windows: &[Window]| differ(replay, &Scene::new(windows.to_vec(), scene.beyond).lines());
    let mut windows = scene.windows.clone();
    loop {
        let before = windows.clone();
        windows = fewer(windows, &mut differs)?;
        windows = closer(windows, scene::columns, &mut |windows| differs(windows))?;
        windows = closer(windows, scene::rows, &mut |windows| differs(windows))?;
        windows = closer(windows, scene::sizes, &mut |windows| differs(windows))?;
        windows = plainer(windows, &mut differs)?;
        if windows == before {
            return Ok(Scene::new(windows, scene.beyond));
        }
    }
}

/// Windows that are shown, and on layer 0.
fn plainer(
    mut windows: Vec<Window>,
    differs: &mut impl FnMut(&[Window]) -> io::Result<bool>,
) -> io::Result<Vec<Window>> {
    for place in 0..windows.len() {
        let mut plain = windows.clone();
        (plain[place].is_shown, plain[place].layer) = (true, 0);
        if differs(&plain)? {
            windows = plain;
        }
    }
    Ok(windows)
}

fn print(replay: &Replay, scene: &Scene) -> io::Result<()> {
    println!("a difference; the smallest scene found that differs:");
    let lines = scene.lines();
    let ours = answers(replay, &lines)?;
    for (place, (line, rule)) in lines.iter().enumerate() {
        let rule = rule.as_ref().map_or(String::new(), |rule| format!("\n  by document 02: {rule}"));
        println!("{line}\n  answer: {}{rule}", ours.get(place).map_or("", String::as_str));
    }
    Ok(())
}
