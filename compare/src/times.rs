//! Random runs of event times.
use crate::random::Random;

/// The last time that there is.
const LAST: u64 = u32::MAX as u64;

pub fn random(random: &mut Random) -> Vec<u32> {
    let length = length(random);
    let mut times = rising(random, length);
    if random.chance(150) {
        late(random, &mut times);
    }
    if random.chance(80) {
        fall(random, &mut times);
    }
    times.into_iter().map(|time| time as u32).collect()
}

/// Mostly short; a few around the longest that is taken, and up to the longest that a line may have.
fn length(random: &mut Random) -> u32 {
    let (least, most) = random.weighted(&[
        (400, (0, 8)),
        (438, (9, 40)),
        (135, (41, 300)),
        (20, (301, 1_000)),
        (2, (1_001, 4_200)),
        (5, (4_095, 4_098)),
    ]);
    random.from_to(least, most)
}

/// How far a time is from the one before it.
type Gap = fn(&mut Random) -> u32;

fn rising(random: &mut Random, length: u32) -> Vec<u64> {
    let gap =
        random.weighted::<Gap>(&[(2, even), (2, equal), (3, whole), (3, part), (3, burst), (1, sparse), (2, any)]);
    let mut time = random.pick(&[0, 1, 999, 123_456]);
    let mut times = Vec::new();
    for _ in 0..length {
        times.push(time);
        time = (time + u64::from(gap(random))).min(LAST);
    }
    times
}

fn even(random: &mut Random) -> u32 {
    random.from_to(4, 6)
}

fn equal(random: &mut Random) -> u32 {
    random.weighted(&[(6, 0), (1, 1), (1, 400), (1, 1000)])
}

/// A second, or nearly one.
fn whole(random: &mut Random) -> u32 {
    random.pick(&[0, 1, 998, 999, 1000, 1001])
}

/// Parts that make up a second, or nearly one.
fn part(random: &mut Random) -> u32 {
    random.pick(&[0, 1, 249, 250, 251, 333, 334, 499, 500, 501])
}

fn burst(random: &mut Random) -> u32 {
    if random.chance(60) {
        return random.from_to(700, 5_000);
    }
    random.from_to(0, 3)
}

fn sparse(random: &mut Random) -> u32 {
    random.from_to(0, 200_000_000)
}

fn any(random: &mut Random) -> u32 {
    let gap = random.pick::<Gap>(&[even, equal, whole, part, burst]);
    gap(random)
}

/// All times are moved so that the last one is within a second of the last that there is.
fn late(random: &mut Random, times: &mut [u64]) {
    let end = LAST - random.pick(&[0, 1, 500, 998, 999, 1000]);
    let by = end.saturating_sub(times.last().copied().unwrap_or(0));
    times.iter_mut().for_each(|time| *time += by);
}

/// One time gets below the one before it, if that is not 0.
fn fall(random: &mut Random, times: &mut [u64]) {
    if times.len() < 2 {
        return;
    }
    let place = random.from_to(1, times.len() as u32 - 1) as usize;
    let by = random.pick(&[1, 2, 999, 1000, LAST]);
    times[place] = times[place - 1].saturating_sub(by);
}
