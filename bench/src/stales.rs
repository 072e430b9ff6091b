//! What is stale of one pixel, beside a redraw 1 by 1 of the same session: both look for what is seen of each window,
//! and next to no pixels are written.
use crate::call::{Call, Side};
use crate::class::{Beside, Class};
use crate::instead::Instead;
use crate::ours::Ours;
use crate::scene::{cascade, free_crossing, Scene};

/// How the names of the classes begin.
pub const STALE: &str = "stale 1 by 1, ";

pub fn classes() -> Vec<Class> {
    let mut all = vec![];
    for n in [4, 16] {
        all.push(one(format!("{STALE}windows: {n}"), cascade(n)));
        all.push(one(format!("{STALE}crossing windows: {n}"), free_crossing(n)));
    }
    all
}

fn one(name: String, scene: Scene) -> Class {
    Class::new(name, Scene { width: 1, height: 1, ..scene }, vec![Call::Stale]).beside(Beside::Drawn)
}

/// Our library without what is stale.
pub fn drawn(ours: Ours) -> impl Side {
    Instead::new(ours, |ours, call| match *call {
        Call::Stale => Some(ours.call(&Call::Redraw(true))),
        _ => None,
    })
}
