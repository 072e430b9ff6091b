//! Positions, sizes and rectangles, and the calls on them alone.
use crate::raw;
use crate::Error;
use core::ops::Deref;

#[repr(C)]
#[derive(Clone, Copy, Debug, Default, PartialEq, Eq)]
pub struct Pos {
    pub x: u32,
    pub y: u32,
}

#[repr(C)]
#[derive(Clone, Copy, Debug, Default, PartialEq, Eq)]
pub struct Dims {
    pub w: u32,
    pub h: u32,
}

#[repr(C)]
#[derive(Clone, Copy, Debug, Default, PartialEq, Eq)]
pub struct Rect {
    pub pos: Pos,
    pub dims: Dims,
}

/// The pieces of one rectangle outside another: at most four.
#[derive(Clone, Copy, Debug, PartialEq, Eq)]
pub struct Pieces {
    count: usize,
    rects: [Rect; 4],
}

impl Deref for Pieces {
    type Target = [Rect];
    fn deref(&self) -> &[Rect] {
        &self.rects[..self.count]
    }
}

impl Pos {
    #[inline]
    pub const fn new(x: u32, y: u32) -> Pos {
        Pos { x, y }
    }
}

fn tested(tested: raw::Tested) -> Result<bool, Error> {
    Error::checked(tested.answer).map(|()| tested.yes)
}

/// SAFETY of every call: its arguments may be any numbers.
impl Rect {
    #[inline]
    pub const fn new(x: u32, y: u32, w: u32, h: u32) -> Rect {
        Rect { pos: Pos { x, y }, dims: Dims { w, h } }
    }

    /// Whether the point lies in it.
    pub fn contains(self, pt: Pos) -> Result<bool, Error> {
        tested(unsafe { raw::roq_contains(self, pt) })
    }

    /// Whether the other lies in it; of an empty one its corner has to.
    pub fn contains_rect(self, other: Rect) -> Result<bool, Error> {
        tested(unsafe { raw::roq_contains_rect(self, other) })
    }

    /// Whether it lies in (0,0,w,h), its corner included.
    pub fn within(self, w: u32, h: u32) -> Result<bool, Error> {
        tested(unsafe { raw::roq_within(self, w, h) })
    }

    /// What both have in common, if they meet.
    pub fn intersect(self, other: Rect) -> Result<Option<Rect>, Error> {
        let common = unsafe { raw::roq_intersect(self, other) };
        Error::checked(common.answer).map(|()| common.meets.then_some(common.rect))
    }

    /// The smallest rectangle that contains both.
    pub fn union(self, other: Rect) -> Result<Rect, Error> {
        let united = unsafe { raw::roq_union(self, other) };
        Error::checked(united.answer).map(|()| united.rect)
    }

    /// Its pieces outside the other: above, left, right, below.
    pub fn not_intersect(self, other: Rect) -> Result<Pieces, Error> {
        let outside = unsafe { raw::roq_not_intersect(self, other) };
        let raw::Pieces { count, rects } = outside.pieces;
        Error::checked(outside.answer).map(|()| Pieces { count, rects })
    }
}
