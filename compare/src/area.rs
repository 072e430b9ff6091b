//! The shadow's own rectangles.
use original::Rect;

#[derive(Clone, Copy, Default, PartialEq)]
pub struct Area {
    pub left: u32,
    pub top: u32,
    pub right: u32,
    pub bottom: u32,
}

impl Area {
    pub fn new(x: u32, y: u32, w: u32, h: u32) -> Area {
        Area { left: x, top: y, right: x + w, bottom: y + h }
    }
    pub fn of(rect: &Rect) -> Area {
        Area::new(rect.pos.x, rect.pos.y, rect.dims.w, rect.dims.h)
    }
    pub fn w(&self) -> u32 {
        self.right - self.left
    }
    pub fn h(&self) -> u32 {
        self.bottom - self.top
    }
    pub fn is_empty(&self) -> bool {
        self.left == self.right || self.top == self.bottom
    }
    pub fn has(&self, x: u32, y: u32) -> bool {
        (self.left..self.right).contains(&x) && (self.top..self.bottom).contains(&y)
    }
    /// The pixels of both.
    pub fn common(&self, other: &Area) -> Option<Area> {
        let left = self.left.max(other.left);
        let top = self.top.max(other.top);
        let right = self.right.min(other.right);
        let bottom = self.bottom.min(other.bottom);
        (left < right && top < bottom).then_some(Area { left, top, right, bottom })
    }
    pub fn meets(&self, other: &Area) -> bool {
        self.common(other).is_some()
    }
    /// The same pixels, counted from the corner of an area that they are in.
    pub fn relative(&self, to: &Area) -> Area {
        Area::new(self.left - to.left, self.top - to.top, self.w(), self.h())
    }
    /// Of two areas that are not empty.
    pub fn holds(&self, other: &Area) -> bool {
        self.common(other) == Some(*other)
    }
    pub fn union(&self, other: &Area) -> Area {
        Area {
            left: self.left.min(other.left),
            top: self.top.min(other.top),
            right: self.right.max(other.right),
            bottom: self.bottom.max(other.bottom),
        }
    }
    /// The parts outside another area, whose pixels are all in this one.
    pub fn outside(&self, hole: &Area) -> impl Iterator<Item = Area> {
        let above = Area { bottom: hole.top, ..*self };
        let left = Area { right: hole.left, top: hole.top, bottom: hole.bottom, ..*self };
        let right = Area { left: hole.right, top: hole.top, bottom: hole.bottom, ..*self };
        let below = Area { top: hole.bottom, ..*self };
        [above, left, right, below].into_iter().filter(|part| !part.is_empty())
    }
}
