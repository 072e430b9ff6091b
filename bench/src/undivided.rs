//! Our library without portions: a walk's first portion is an undivided redraw, and the others are nothing.
use crate::call::{Call, Reply, Side};
use crate::instead::Instead;
use crate::ours::Ours;

pub fn undivided(ours: Ours) -> impl Side {
    // Whether a walk was begun as a full one, until its first portion.
    let mut begun = None;
    Instead::new(ours, move |ours, call| match *call {
        Call::Begin(forced) => {
            begun = Some(forced);
            Some(Reply::Answer(0))
        }
        Call::Portion => Some(begun.take().map_or(Reply::Answer(0), |forced| ours.call(&Call::Redraw(forced)))),
        _ => None,
    })
}
