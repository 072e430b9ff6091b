//! First layouts of windows, in which a higher window meets all or none of a list's entries.
use super::{Maker, Step};
use crate::area::Area;

impl Maker<'_> {
    pub fn layout(&mut self) -> Step {
        let layout = self.random.pick(&[chain, grid, stack, trims, cross, rings, apart]);
        let unit = self.random.pick(&[1, (self.scene.side / 4).clamp(1, 60)]);
        for place in 0..self.scene.windows {
            let area = layout(place, unit, self.scene.windows);
            let (w, h) = (area.w(), area.h());
            if w * h > self.scene.c {
                continue;
            }
            self.say("create")?;
            let Some(id) = self.newest() else { return Ok(()) };
            self.say(&format!("resize {id} {w} {h}"))?;
            self.say(&format!("move {id} {} {}", area.left, area.top))?;
            self.say(&format!("show {id}"))?;
            let colour = self.colour();
            self.say(&format!("fill {id} 0 0 {w} {h} {colour}"))?;
        }
        Ok(())
    }

    /// In a fresh session windows are created in the order of their ids.
    fn newest(&self) -> Option<usize> {
        self.script.player.shadow.places.used.iter().rposition(|used| *used)
    }
}

/// Each window meets the one before and the one after it.
fn chain(place: u32, unit: u32, _of: u32) -> Area {
    Area::new(place * 3 * unit, place % 4 * 2 * unit, 4 * unit, 4 * unit)
}

/// No window meets another, but some touch.
fn grid(place: u32, unit: u32, _of: u32) -> Area {
    Area::new(place % 4 * 4 * unit, place / 4 * 3 * unit, 4 * unit, 3 * unit)
}

/// Each window lies within the ones below it and touches their left and top.
fn stack(place: u32, unit: u32, of: u32) -> Area {
    Area::new(0, 0, (of - place) * unit, unit + (of - place) / 2)
}

/// Each window covers the right end of the ones below it.
fn trims(place: u32, unit: u32, _of: u32) -> Area {
    Area::new(place * unit, 0, 6 * unit, 3 * unit)
}

/// Bars across one another.
fn cross(place: u32, unit: u32, _of: u32) -> Area {
    match place % 3 {
        0 => Area::new(place * 4 * unit, 0, 6 * unit, 6 * unit),
        1 => Area::new((place - 1) * 4 * unit + 2 * unit, 0, unit, 6 * unit),
        _ => Area::new((place - 2) * 4 * unit, 3 * unit, 6 * unit, unit),
    }
}

/// A cross, and larger and larger windows over its middle: lists of many entries.
fn rings(place: u32, unit: u32, of: u32) -> Area {
    let side = (2 * of + 1) * unit;
    let middle = of * unit;
    match place {
        0 => Area::new(0, 0, side, side),
        1 => Area::new(middle, 0, unit, side),
        2 => Area::new(0, middle, side, unit),
        _ => Area::new(
            middle - (place - 2) * unit,
            middle - (place - 2) * unit,
            (2 * place - 3) * unit,
            (2 * place - 3) * unit,
        ),
    }
}

/// Small windows far from one another.
fn apart(place: u32, unit: u32, _of: u32) -> Area {
    Area::new(place % 8 * 4 * unit, place / 8 * 5 * unit, unit, 2 * unit)
}
