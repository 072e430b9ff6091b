//! Region sheets, random, damaged and of random scenes, played on our program and held against several judges: the words of document 02, bands made
//! between the edges of rectangles, the original's own rectangles, and pixman's regions. Bands and intervals are compared, since two bands over the
//! same rows have the rectangles of one.
mod agree;
mod case;
mod closer;
mod damage;
mod judges;
mod pixman;
mod random;
mod reading;
mod scene;
mod writing;

use crate::replay::Replay;
use std::io;

/// One scene is written for so many sheets that are read.
const SHEETS_A_SCENE: u64 = 10;

/// Reads so many sheets, and writes those of a tenth as many scenes. Prints their kinds, or the smallest case found that differs.
pub fn run(replay: &Replay, sheets: u64, seed: u64) -> io::Result<bool> {
    if !pixman::INSTALLED {
        println!("pixman is not installed: its regions are passed over");
    }
    let scenes = sheets.div_ceil(SHEETS_A_SCENE);
    let Some(read) = reading::run(replay, sheets, seed)? else { return Ok(false) };
    let Some(written) = writing::run(replay, scenes, seed)? else { return Ok(false) };
    println!("{read} sheets read, {written} sheets of {scenes} scenes written, 0 differences");
    Ok(true)
}
