//! The busiest second by the words of document 02, N13: every event is asked of every second, in any order. The original has no such call.

/// "26 when the run is longer. 27 when a time is below the one before it, asked after 26."
pub fn answer(times: &[u32]) -> u8 {
    if times.len() > 4096 {
        return 26;
    }
    match times.windows(2).any(|pair| pair[1] < pair[0]) {
        true => 27,
        false => 0,
    }
}

pub struct Second {
    pub count: u32,
    pub place: u32,
    /// How many events begin a second with this count.
    pub begun: usize,
}

/// "the greatest number of events … and the first event that starts such a span"; "an empty run gives 0 and place 0"
pub fn second(times: &[u32]) -> Second {
    let counts: Vec<u32> = times.iter().map(|&time| events(time, times)).collect();
    let count = counts.iter().copied().max().unwrap_or(0);
    let place = counts.iter().position(|&of| of == count).unwrap_or(0) as u32;
    Second { count, place, begun: counts.iter().filter(|&&of| of == count).count() }
}

/// "from an event's time t up to but not including t + 1,000"
fn events(t: u32, times: &[u32]) -> u32 {
    let span = u64::from(t)..u64::from(t) + 1000;
    times.iter().map(|&time| u32::from(span.contains(&u64::from(time)))).sum()
}
