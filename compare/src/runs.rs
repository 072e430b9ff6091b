//! Random runs of event times, played on our program and held against the words of document 02.
use crate::busiest::{answer, second};
use crate::random::Random;
use crate::replay::Replay;
use crate::script::text_of;
use crate::shrink::fewer;
use crate::times;
use std::io;

/// So many runs go to our program at a time.
const CHUNK: u64 = 1000;

/// What was compared, for the table.
#[derive(Default)]
struct Kinds {
    accepted: u64,
    tied: u64,
    equal: u64,
    late: u64,
    longer: u64,
    falling: u64,
    longest: usize,
}

/// Compares so many runs. Prints their kinds, or the smallest run found that differs.
pub fn run(replay: &Replay, runs: u64, seed: u64) -> io::Result<bool> {
    let mut random = Random::new(seed);
    let mut kinds = Kinds::default();
    let mut done = 0;
    while done < runs {
        let chunk: Vec<Vec<u32>> = (0..CHUNK.min(runs - done)).map(|_| times::random(&mut random)).collect();
        let rules: Vec<String> = chunk.iter().map(|times| kinds.ruled(times)).collect();
        let ours = answers(replay, &chunk)?;
        if let Some(place) = (0..chunk.len()).find(|&place| ours.get(place) != Some(&rules[place])) {
            let run = done + place as u64 + 1;
            println!("a difference, seed {seed}, run {run}; the smallest run found that differs:");
            print(replay, &smallest(replay, chunk[place].clone())?)?;
            return Ok(false);
        }
        done += chunk.len() as u64;
    }
    kinds.print();
    println!("{runs} runs, 0 differences");
    Ok(true)
}

fn line(times: &[u32]) -> String {
    let numbers: String = times.iter().map(|time| format!(" {time}")).collect();
    format!("busiest{numbers}")
}

fn answers(replay: &Replay, runs: &[Vec<u32>]) -> io::Result<Vec<String>> {
    let lines: Vec<String> = runs.iter().map(|times| line(times)).collect();
    let text = replay.play(text_of(&lines))?;
    Ok(String::from_utf8_lossy(&text).lines().map(String::from).collect())
}

impl Kinds {
    /// The answer that the rule gives; the run is counted.
    fn ruled(&mut self, times: &[u32]) -> String {
        match answer(times) {
            0 => return self.accepted(times),
            26 => self.longer += 1,
            _ => self.falling += 1,
        }
        answer(times).to_string()
    }

    fn accepted(&mut self, times: &[u32]) -> String {
        let second = second(times);
        self.accepted += 1;
        self.tied += u64::from(second.begun > 1);
        self.equal += u64::from(times.windows(2).any(|pair| pair[0] == pair[1]));
        self.late += u64::from(times.last().is_some_and(|&last| last > u32::MAX - 1000));
        self.longest = self.longest.max(times.len());
        format!("0 {} {}", second.count, second.place)
    }

    fn print(&self) {
        println!("accepted: {}, at most {} times", self.accepted, self.longest);
        println!("  of these several seconds have the greatest count in {}", self.tied);
        println!("  equal times are in {}", self.equal);
        println!("  a second goes beyond 4,294,967,295 in {}", self.late);
        println!("refused by 26: {}", self.longer);
        println!("refused by 27: {}", self.falling);
    }
}

fn differs(replay: &Replay, times: &[u32]) -> io::Result<bool> {
    let ours = answers(replay, &[times.to_vec()])?;
    Ok(ours != [Kinds::default().ruled(times)])
}

/// Leaves times out and makes gaps smaller as long as the run differs.
fn smallest(replay: &Replay, mut times: Vec<u32>) -> io::Result<Vec<u32>> {
    loop {
        let before = times.clone();
        times = fewer(times, &mut |times| differs(replay, times))?;
        for place in 0..times.len() {
            smaller_gap(replay, &mut times, place)?;
        }
        if times == before {
            return Ok(times);
        }
    }
}

/// All times from the place on come earlier: by half of the gap before it if the run still differs, by a quarter, and so on down to one.
fn smaller_gap(replay: &Replay, times: &mut Vec<u32>, place: usize) -> io::Result<()> {
    let before = if place == 0 { 0 } else { times[place - 1] };
    let mut by = times[place].saturating_sub(before).div_ceil(2);
    while by > 0 {
        let mut earlier = times.clone();
        earlier[place..].iter_mut().for_each(|time| *time = time.saturating_sub(by));
        if differs(replay, &earlier)? {
            *times = earlier;
        }
        by /= 2;
    }
    Ok(())
}

fn print(replay: &Replay, times: &[u32]) -> io::Result<()> {
    println!("{}", line(times));
    println!("answer: {}", answers(replay, &[times.to_vec()])?.join("\n"));
    println!("by document 02: {}", Kinds::default().ruled(times));
    Ok(())
}
