// Objects as they are seen from another one: the square of the distance of each is a parabola, by parts in which both
// move on lines.
use crate::spans::{Quad, Span};

/// Ticks through which both objects move on lines, and the square of their distance by the ticks since the first one.
#[derive(Clone, Copy)]
pub struct Part {
    pub first: u32,
    pub last: u32,
    pub square: Quad,
}

impl Part {
    /// The part within some ticks; nothing where it has none of them.
    pub fn within(&self, (lo, hi): Span) -> Option<Part> {
        let (first, last) = (self.first.max(lo), self.last.min(hi));
        (first <= last).then(|| Part { first, last, square: self.from(first) })
    }

    /// The square by the ticks since a later one.
    pub fn from(&self, tick: u32) -> Quad {
        if tick == self.first {
            return self.square;
        }
        let Quad { a, b, .. } = self.square;
        let ticks = i64::from(tick - self.first);
        Quad { a, b: b + a * i128::from(ticks), c: self.square.at(ticks) }
    }

    /// The least square and the greatest one.
    fn bounds(&self) -> (i128, i128) {
        let Quad { a, b, c } = self.square;
        let last = i64::from(self.last - self.first);
        let end = self.square.at(last);
        let least = if b >= 0 {
            c
        } else if a * i128::from(last) + b <= 0 {
            end
        } else {
            let lowest = (-b / a) as i64;
            self.square.at(lowest).min(self.square.at(lowest + 1))
        };
        (least, c.max(end))
    }
}

/// The parts of some objects, one object after the other.
#[derive(Default)]
pub struct Parts {
    pub all: Vec<Part>,
    /// For each object the end of its parts.
    ends: Vec<usize>,
}

impl Parts {
    pub fn clear(&mut self) {
        self.all.clear();
        self.ends.clear();
    }

    /// Ends the parts of an object.
    pub fn end(&mut self) {
        self.ends.push(self.all.len());
    }

    pub fn of(&self, number: usize) -> &[Part] {
        &self.all[if number == 0 { 0 } else { self.ends[number - 1] }..self.ends[number]]
    }
}

/// Objects in the order of first insertion, by their parts. At a tick of none of its parts an object is absent.
#[derive(Default)]
pub struct Courses {
    /// The place of each object in its class.
    pub places: Vec<usize>,
    pub parts: Parts,
}

impl Courses {
    /// Ends the parts of an object.
    pub fn end(&mut self, place: usize) {
        self.places.push(place);
        self.parts.end();
    }

    /// The parts of an object within some ticks.
    pub fn within(&self, number: u32, window: Span) -> impl Iterator<Item = Part> {
        let parts = self.parts.of(number as usize);
        let from = parts.partition_point(|part| part.last < window.0);
        parts[from..].iter().map_while(move |part| part.within(window))
    }

    /// The least square of an object within some ticks and the greatest one, which has no bound where the object is
    /// absent at one of them. Nothing where it is absent throughout.
    pub fn bounds(&self, number: u32, (lo, hi): Span) -> Option<(i128, i128)> {
        let (mut least, mut greatest, mut next) = (i128::MAX, i128::MIN, lo);
        for part in self.within(number, (lo, hi)) {
            let bounds = part.bounds();
            least = least.min(bounds.0);
            greatest = greatest.max(if part.first == next { bounds.1 } else { i128::MAX });
            next = part.last + 1;
        }
        (next > lo).then_some((least, if next > hi { greatest } else { i128::MAX }))
    }
}
