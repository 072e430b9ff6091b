//! Sheets that are read.
use super::case::Case;
use super::damage::case;
use super::judges::judged;
use super::random::{sheet, Kind};
use crate::random::Random;
use crate::replay::Replay;
use crate::script::text_of;
use crate::sheet::{bytes, rects};
use std::collections::BTreeMap;
use std::io;

/// So many sheets go to our program at a time.
const CHUNK: u64 = 2000;
/// Of so many good sheets every single bit is changed.
const CHANGED: u64 = 100;
/// The list that is lent where no line says another length.
const ROOM: u32 = 7_812;

/// What is read, what was done to it, and how long the list is, if a line says so.
struct Reading {
    what: &'static str,
    bytes: Vec<u8>,
    room: Option<u32>,
}

type Kinds = BTreeMap<(&'static str, String), u64>;

/// Reads so many random sheets, and those with a bit changed. Gives how many there were, if none differs.
pub fn run(replay: &Replay, sheets: u64, seed: u64) -> io::Result<Option<u64>> {
    let mut random = Random::new(seed);
    let mut kinds = Kinds::new();
    let changed: Vec<Reading> = (0..CHANGED).flat_map(|_| bits_changed(&mut random)).collect();
    if !compare(replay, &changed, &mut kinds)? {
        return Ok(None);
    }
    let mut done = 0;
    while done < sheets {
        let chunk: Vec<Reading> = (0..CHUNK.min(sheets - done)).map(|_| reading(&mut random)).collect();
        if !compare(replay, &chunk, &mut kinds)? {
            println!("seed {seed}, one of the sheets {} to {}", done + 1, done + chunk.len() as u64);
            return Ok(None);
        }
        done += chunk.len() as u64;
    }
    kinds.iter().for_each(|((what, answer), times)| println!("read, {what}, answered by {answer}: {times}"));
    Ok(Some(kinds.values().sum()))
}

/// The list is mostly long enough; else near what the sheet needs.
fn reading(random: &mut Random) -> Reading {
    let (what, bytes) = case(random);
    let needs = Case::of(&bytes).bands.iter().map(|band| 4 * band.spans.len() as u32).sum::<u32>();
    let rooms = [needs, needs + 1, needs.saturating_sub(1), needs.saturating_sub(4), 0];
    let room = random.chance(150).then(|| random.pick(&rooms).min(ROOM));
    Reading { what, bytes, room }
}

/// A good sheet, and all that have another bit in one place.
fn bits_changed(random: &mut Random) -> Vec<Reading> {
    let gap = random.pick(&[2, 5, 5_000]);
    let good = bytes(&sheet(random, Kind { bands: (1, 4), spans: 4, gap }));
    let changed = |at: usize| {
        let mut bytes = good.clone();
        bytes[at / 8] ^= 128 >> (at % 8);
        Reading { what: "one bit of a good sheet changed", bytes, room: None }
    };
    let whole = Reading { what: "no damage", bytes: good.clone(), room: None };
    [whole].into_iter().chain((0..8 * good.len()).map(changed)).collect()
}

impl Reading {
    fn lines(&self) -> Vec<String> {
        let numbers: String = self.bytes.iter().map(|byte| format!(" {byte}")).collect();
        let lend = self.room.map(|room| format!("lend-list {room}"));
        lend.into_iter().chain([format!("read-sheet{numbers}")]).collect()
    }

    /// The answer by document 02, or what the judges do not agree on.
    fn ruled(&self) -> Result<String, String> {
        let Some(bands) = judged(&self.bytes)? else { return Ok("18".to_string()) };
        let numbers = rects(&bands);
        if numbers.len() > self.room.unwrap_or(ROOM) as usize {
            return Ok("19".to_string());
        }
        let listed: String = numbers.iter().map(|number| format!(" {number}")).collect();
        Ok(format!("0 {}{listed}", numbers.len() / 4))
    }
}

/// Holds the judges against each other, and then our program against them. Prints the smallest case found that differs.
fn compare(replay: &Replay, chunk: &[Reading], kinds: &mut Kinds) -> io::Result<bool> {
    let ours = answers(replay, chunk)?;
    for (place, reading) in chunk.iter().enumerate() {
        let ruled = match reading.ruled() {
            Ok(ruled) => ruled,
            Err(apart) => {
                println!("the judges do not agree on {:?}: {apart}", reading.bytes);
                return Ok(false);
            }
        };
        if ours.get(place) != Some(&ruled) {
            print(replay, reading)?;
            return Ok(false);
        }
        let answer = ruled.split(' ').next().unwrap_or_default().to_string();
        *kinds.entry((reading.what, answer)).or_default() += 1;
    }
    Ok(true)
}

/// One for each sheet.
fn answers(replay: &Replay, chunk: &[Reading]) -> io::Result<Vec<String>> {
    let lines: Vec<String> = chunk.iter().flat_map(Reading::lines).collect();
    let text = String::from_utf8_lossy(&replay.play(text_of(&lines))?).into_owned();
    let of_sheet = |(line, answer): (&String, &str)| line.starts_with("read").then(|| answer.to_string());
    Ok(lines.iter().zip(text.lines()).filter_map(of_sheet).collect())
}

fn print(replay: &Replay, reading: &Reading) -> io::Result<()> {
    let with = |case: &Case| Reading { what: reading.what, bytes: case.bytes(), room: reading.room };
    let mut differs = |case: &Case| {
        let reading = with(case);
        let ruled = reading.ruled().map_err(io::Error::other)?;
        Ok(answers(replay, &[reading])? != [ruled])
    };
    let case = Case::of(&reading.bytes).smallest(&mut differs)?;
    let smallest = with(&case);
    println!(
        "a difference, {}; the smallest case found that differs:\n{case}{}",
        reading.what,
        smallest.lines().join("\n")
    );
    println!("answer: {}", answers(replay, &[with(&case)])?.join("\n"));
    println!("by document 02: {}", smallest.ruled().map_err(io::Error::other)?);
    Ok(())
}
