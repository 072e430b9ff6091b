//! The share of a window that is in view, beside two other ways to it: our visible list, and a region of pixman. There the areas of the
//! rectangles are added up in Rust.
use crate::call::{Call, Reply, Side};
use crate::class::{Beside, Class};
use crate::instead::Instead;
use crate::ours::Ours;
use crate::pixman;
use crate::scene::free_crossing;
use roqshyn::{Error, Share};

/// How the names of the classes begin.
pub const SHARE: &str = "share in view";

pub fn classes() -> Vec<Class> {
    let mut all = vec![lowest(Beside::Listed, "")];
    if pixman::INSTALLED {
        all.push(lowest(Beside::Pixman, ""));
        all.push(lowest(Beside::PixmanAtOnce, ", those above as one region"));
    }
    all
}

fn lowest(beside: Beside, way: &str) -> Class {
    let name = format!("{SHARE} of the lowest, crossing windows: 16{way}");
    Class::new(name, free_crossing(16), vec![Call::Share(0)]).beside(beside)
}

/// The share of a window of `size` pixels.
pub fn share(unobscured: u32, size: u32) -> Result<Share, Error> {
    if size == 0 {
        return Err(Error::NotInView);
    }
    let hundred = 100 * unobscured;
    Ok(Share { percent: hundred / size, remainder: hundred % size })
}

/// Our library without shares.
pub fn listed(ours: Ours) -> impl Side {
    Instead::new(ours, |ours, call| match *call {
        Call::Share(id) => Some(Reply::Share(ours.listed_share(id))),
        _ => None,
    })
}
