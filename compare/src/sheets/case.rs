//! Any bytes as bands, which need not keep the rules, and what comes behind them: so a case is made smaller by bands and intervals.
use super::closer::closer;
use crate::sheet::{bands_of, bytes, Band, Span};
use crate::shrink::fewer;
use std::fmt;
use std::io;

#[derive(Clone, Debug, PartialEq)]
pub struct Case {
    pub bands: Vec<Band>,
    /// So many of the bands' last bytes, which are 0, are not there.
    pub lacks: usize,
    /// The bits that fill the last byte.
    pub filling: u8,
    /// The bytes that follow.
    pub more: Vec<u8>,
}

impl Case {
    pub fn good(bands: Vec<Band>) -> Case {
        Case { bands, lacks: 0, filling: 0, more: Vec::new() }
    }

    pub fn of(read: &[u8]) -> Case {
        let (bands, bits) = bands_of(read);
        let (whole, length) = (bytes(&bands), bits.div_ceil(8));
        let last = read.get(length - 1).map_or(0, |byte| byte ^ whole[length - 1]);
        let more = read.get(length..).unwrap_or_default().to_vec();
        Case { bands, lacks: length.saturating_sub(read.len()), filling: last, more }
    }

    pub fn bytes(&self) -> Vec<u8> {
        let mut bytes = bytes(&self.bands);
        if let Some(last) = bytes.last_mut() {
            *last |= self.filling;
        }
        bytes.truncate(bytes.len().saturating_sub(self.lacks));
        bytes.extend(&self.more);
        bytes
    }

    /// As long as the case still differs: fewer bands, fewer intervals, smaller numbers, less behind them.
    pub fn smallest(mut self, differs: &mut impl FnMut(&Case) -> io::Result<bool>) -> io::Result<Case> {
        loop {
            let before = self.clone();
            self.bands =
                fewer(self.bands.clone(), &mut |bands| differs(&Case { bands: bands.to_vec(), ..before.clone() }))?;
            self = self.fewer_of_each(differs)?.fewer_of_all(differs)?;
            self = closer(self, rows, differs)?;
            self = closer(self, columns, differs)?;
            self = self.less_behind(differs)?;
            if self == before {
                return Ok(self);
            }
        }
    }

    fn fewer_of_each(mut self, differs: &mut impl FnMut(&Case) -> io::Result<bool>) -> io::Result<Case> {
        for place in 0..self.bands.len() {
            let spans = self.bands[place].spans.clone();
            self.bands[place].spans = fewer(spans, &mut |spans| differs(&self.with(place, spans)))?;
        }
        Ok(self)
    }

    /// With other intervals in one band.
    fn with(&self, place: usize, spans: &[Span]) -> Case {
        let mut case = self.clone();
        case.bands[place].spans = spans.to_vec();
        case
    }

    /// The interval at one place is left out of every band, since bands may have to be alike.
    fn fewer_of_all(mut self, differs: &mut impl FnMut(&Case) -> io::Result<bool>) -> io::Result<Case> {
        for place in (0..31).rev() {
            let mut other = self.clone();
            let with = other.bands.iter_mut().filter(|band| band.spans.len() > place);
            with.for_each(|band| _ = band.spans.remove(place));
            if other != self && differs(&other)? {
                self = other;
            }
        }
        Ok(self)
    }

    fn less_behind(self, differs: &mut impl FnMut(&Case) -> io::Result<bool>) -> io::Result<Case> {
        let shorter = self.more[..self.more.len().saturating_sub(1)].to_vec();
        let others = [
            Case { lacks: 0, filling: 0, more: Vec::new(), ..self.clone() },
            Case { lacks: self.lacks.saturating_sub(1), ..self.clone() },
            Case { filling: self.filling.min(1), ..self.clone() },
            Case { more: shorter, ..self.clone() },
        ];
        for other in others {
            if other != self && differs(&other)? {
                return Ok(other);
            }
        }
        Ok(self)
    }
}

fn rows(case: &mut Case) -> Vec<&mut u32> {
    case.bands.iter_mut().flat_map(|band| [&mut band.top, &mut band.bottom]).collect()
}

fn columns(case: &mut Case) -> Vec<&mut u32> {
    let spans = case.bands.iter_mut().flat_map(|band| &mut band.spans);
    spans.flat_map(|span| [&mut span.left, &mut span.right]).collect()
}

impl fmt::Display for Case {
    fn fmt(&self, f: &mut fmt::Formatter) -> fmt::Result {
        writeln!(f, "bands: {}", self.bands.len())?;
        for band in &self.bands {
            let spans: String = band.spans.iter().map(|span| format!(" {} to {}", span.left, span.right)).collect();
            writeln!(f, "  rows {} to {}, columns{spans}", band.top, band.bottom)?;
        }
        let Case { lacks, filling, more, .. } = self;
        writeln!(f, "bytes missing: {lacks}, bits that fill the last byte: {filling}, bytes that follow: {more:?}")
    }
}
