//! Whether it matters in which order two panels are written. Our program alone plays two lists of fills, blits and marks, one on each of
//! two windows, in every order that keeps each list's own, each time from a fresh start. Every line must get the same answer in all of them.
use crate::pairs::Pair;
use crate::random::Random;
use crate::replay::Replay;
use crate::script::text_of;
use crate::shrink::fewer;
use std::collections::BTreeMap;
use std::io;

/// The answers to a pair's lines, each with its line's place.
type Answers = BTreeMap<usize, String>;

/// What was compared, for the table.
#[derive(Default)]
struct Kinds {
    pairs: u64,
    interleavings: usize,
    meeting: u64,
    hidden: u64,
    drawn: u64,
    accepted: BTreeMap<String, u64>,
    refused: BTreeMap<String, u64>,
}

/// Plays so many pairs of lists. Prints their kinds, or the smallest pair found that differs.
pub fn run(replay: &Replay, pairs: u64, seed: u64) -> io::Result<bool> {
    let mut random = Random::new(seed);
    let mut kinds = Kinds::default();
    for number in 1..=pairs {
        let pair = Pair::random(&mut random);
        let orders = orders(&pair);
        let answers = play(replay, &pair.lines, &orders[0])?;
        for order in &orders[1..] {
            if play(replay, &pair.lines, order)? != answers {
                println!("a difference, seed {seed}, pair {number}; the smallest one found, in both orders:");
                print_smallest(replay, &pair.lines, [&orders[0], order])?;
                return Ok(false);
            }
        }
        kinds.count(&pair, &answers, orders.len());
    }
    kinds.print();
    println!("{} interleavings of {pairs} pairs, 0 differences", kinds.interleavings);
    Ok(true)
}

/// The orders in which the lines are played, by their places. The first is that of the places.
fn orders(pair: &Pair) -> Vec<Vec<usize>> {
    let places: Vec<usize> = (0..pair.lines.len()).collect();
    let [one, other] = pair.lists.clone();
    let (before, after) = (&places[..one.start], &places[other.end..]);
    let lists = interleavings(&places[one], &places[other]);
    lists.iter().map(|lists| [before, lists, after].concat()).collect()
}

/// All that keep the order of each. The first has one after the other.
fn interleavings(one: &[usize], other: &[usize]) -> Vec<Vec<usize>> {
    if one.is_empty() || other.is_empty() {
        return vec![[one, other].concat()];
    }
    let first = interleavings(&one[1..], other).into_iter().map(|rest| [&one[..1], &rest].concat());
    let second = interleavings(one, &other[1..]).into_iter().map(|rest| [&other[..1], &rest].concat());
    first.chain(second).collect()
}

fn play(replay: &Replay, lines: &[String], order: &[usize]) -> io::Result<Answers> {
    let script: Vec<String> = order.iter().map(|&place| lines[place].clone()).collect();
    let text = replay.play(text_of(&script))?;
    let answers: Vec<String> = String::from_utf8_lossy(&text).lines().map(String::from).collect();
    if answers.len() != script.len() {
        let (lines, count) = (script.join("\n"), script.len());
        return Err(io::Error::other(format!("{lines}\n{count} lines got {} answers", answers.len())));
    }
    Ok(order.iter().copied().zip(answers).collect())
}

impl Kinds {
    fn count(&mut self, pair: &Pair, answers: &Answers, interleavings: usize) {
        self.pairs += 1;
        self.interleavings += interleavings;
        let are_shown = pair.ids.iter().all(|&id| pair.windows.is_shown(id));
        self.hidden += u64::from(!are_shown);
        self.meeting += u64::from(are_shown && meet(pair));
        self.drawn += u64::from(answers[&pair.screens[0]] != answers[&pair.screens[1]]);
        for place in pair.lists.clone().into_iter().flatten() {
            match answers[&place].as_str() {
                "0" => add(&mut self.accepted, pair.lines[place].split(' ').next().unwrap_or_default()),
                answer => add(&mut self.refused, answer),
            }
        }
    }

    fn print(&self) {
        println!("pairs: {}", self.pairs);
        println!("  both windows are shown and meet in {}", self.meeting);
        println!("  a window is hidden or not there in {}", self.hidden);
        println!("  what is drawn next changes the screen in {}", self.drawn);
        println!("calls accepted: {}", self.accepted.values().sum::<u64>());
        self.accepted.iter().for_each(|(word, count)| println!("  {word}: {count}"));
        println!("calls refused: {}", self.refused.values().sum::<u64>());
        self.refused.iter().for_each(|(answer, count)| println!("  by {answer}: {count}"));
    }
}

fn meet(pair: &Pair) -> bool {
    let [one, other] = pair.ids.map(|id| pair.windows.at[id as usize]);
    one.meets(&other)
}

fn add(counts: &mut BTreeMap<String, u64>, key: &str) {
    *counts.entry(key.to_string()).or_default() += 1;
}

/// Leaves lines out as long as the two orders differ, and prints the rest in both. `*` marks the lines whose answers differ.
fn print_smallest(replay: &Replay, lines: &[String], orders: [&[usize]; 2]) -> io::Result<()> {
    let mut differs = |kept: &[usize]| {
        let [one, other] = orders.map(|order| play(replay, lines, &only(order, kept)));
        Ok(one? != other?)
    };
    let kept = fewer(orders[0].to_vec(), &mut differs)?;
    let orders = orders.map(|order| only(order, &kept));
    let answers = [play(replay, lines, &orders[0])?, play(replay, lines, &orders[1])?];
    for (order, own) in orders.iter().zip(&answers) {
        println!("\n  {:34} | answer", "call");
        for place in order {
            let mark = if answers[0][place] == answers[1][place] { ' ' } else { '*' };
            println!("{mark} {:34} | {}", lines[*place], own[place]);
        }
    }
    Ok(())
}

fn only(order: &[usize], kept: &[usize]) -> Vec<usize> {
    order.iter().copied().filter(|place| kept.contains(place)).collect()
}
