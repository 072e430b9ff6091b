//! Numbers made smaller, with their order kept.
use std::io;

/// The numbers of a case that are made smaller together.
pub type Numbers<T> = fn(&mut T) -> Vec<&mut u32>;

/// Each number, from the least on, comes as close to the one before it as the case still differs.
pub fn closer<T: Clone>(
    mut case: T,
    numbers: Numbers<T>,
    differs: &mut impl FnMut(&T) -> io::Result<bool>,
) -> io::Result<T> {
    let mut before = 0;
    while let Some(next) = numbers(&mut case).into_iter().map(|n| *n).filter(|&n| n > before).min() {
        let at = nearer(&mut case, numbers, (before, next), differs)?;
        before = at.max(before + 1);
    }
    Ok(case)
}

/// A number, and all that are not smaller, come closer to the one before it: by half of the gap if the case still differs, by a quarter, and so on
/// down to one. Gives the number then.
fn nearer<T: Clone>(
    case: &mut T,
    numbers: Numbers<T>,
    (before, mut at): (u32, u32),
    differs: &mut impl FnMut(&T) -> io::Result<bool>,
) -> io::Result<u32> {
    let mut by = (at - before).div_ceil(2);
    while by > 0 {
        let mut other = case.clone();
        numbers(&mut other).into_iter().filter(|n| **n >= at).for_each(|n| *n -= by);
        if at - before >= by && differs(&other)? {
            (*case, at) = (other, at - by);
        }
        by /= 2;
    }
    Ok(at)
}
