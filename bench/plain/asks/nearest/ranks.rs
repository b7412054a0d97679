// How many objects stand before each of those of a slice, and where that changes.
use super::courses::{Courses, Parts};
use super::plan::Slice;
use crate::spans::{self, Quad, Span, push};

/// The ranks of the objects of a slice: how many stand before each.
pub struct Ranks<'a> {
    courses: &'a Courses,
    k: u32,
    parts: Parts,
    changes: Changes,
    near: Vec<Span>,
    there: Vec<Span>,
}

impl Ranks<'_> {
    pub fn new(courses: &Courses, k: u32) -> Ranks<'_> {
        let (near, there) = (Vec::new(), Vec::new());
        Ranks { courses, k, parts: Parts::default(), changes: Changes::default(), near, there }
    }

    /// Adds to the row of each object the ticks of the slice at which it is near.
    pub fn add_rows(&mut self, slice: &Slice, rows: &mut [Vec<Span>]) {
        self.start(slice);
        if slice.kept.len() > self.k as usize {
            for second in 1..slice.kept.len() {
                for first in 0..second {
                    self.add_pair(first, second);
                }
            }
        }
        for (number, object) in slice.kept.iter().enumerate() {
            self.changes.sweep(number, self.k, &mut self.near);
            self.add_row(number, slice.window.0, &mut rows[*object as usize]);
        }
    }

    /// Begins with the parts of the objects, by the ticks since the first of the slice.
    fn start(&mut self, slice: &Slice) {
        let (lo, hi) = slice.window;
        self.parts.clear();
        for number in &slice.kept {
            for mut part in self.courses.within(*number, (lo, hi)) {
                part.first -= lo;
                part.last -= lo;
                self.parts.all.push(part);
            }
            self.parts.end();
        }
        self.changes.start(slice.kept.len(), hi - lo);
    }

    /// Adds at which ticks one of two objects stands before the other. The first one was inserted before the second.
    fn add_pair(&mut self, first: usize, second: usize) {
        let (mut ps, mut qs) = (self.parts.of(first), self.parts.of(second));
        while let ([p, others @ ..], [q, rest @ ..]) = (ps, qs) {
            let (lo, hi) = (p.first.max(q.first), p.last.min(q.last));
            if lo <= hi {
                let (p, q) = (p.from(lo), q.from(lo));
                let difference = Quad { a: p.a - q.a, b: p.b - q.b, c: p.c - q.c };
                self.changes.add((first, second), difference, (lo, hi));
            }
            ps = if p.last == hi { others } else { ps };
            qs = if q.last == hi { rest } else { qs };
        }
    }

    /// Adds the near ticks at which the object is there; `lo` is the first of the slice.
    fn add_row(&mut self, number: usize, lo: u32, row: &mut Vec<Span>) {
        self.there.clear();
        self.parts.of(number).iter().for_each(|part| push(&mut self.there, (part.first, part.last)));
        let mut both = Vec::new();
        spans::meet(&self.near, &self.there, &mut both);
        both.iter().for_each(|(from, till)| push(row, (lo + from, lo + till)));
    }
}

/// Where ranks change. All ticks are those since the first of the slice.
#[derive(Default)]
struct Changes {
    last: u32,
    /// How many stand before each object at the first tick.
    firsts: Vec<u32>,
    /// For each object the later ticks at which its rank changes: twice the tick, and one more where the rank rises.
    later: Vec<Vec<u32>>,
}

impl Changes {
    fn start(&mut self, count: usize, last: u32) {
        self.last = last;
        self.firsts.clear();
        self.firsts.resize(count, 0);
        self.later.iter_mut().for_each(Vec::clear);
        self.later.resize_with(self.later.len().max(count), Vec::new);
    }

    /// Adds at which ticks one of two objects stands before the other, where the difference of their squares is one
    /// parabola. If that opens downwards, the ticks at which the second object is before the first are one stretch.
    fn add(&mut self, (first, second): (usize, usize), Quad { a, b, c }: Quad, (lo, hi): Span) {
        let (ahead, behind, stretch) = if a >= 0 {
            (first, second, low(&Quad { a, b, c }, hi - lo))
        } else {
            (second, first, low(&Quad { a: -a, b: -b, c: 1 - c }, hi - lo))
        };
        let Some((from, till)) = stretch else {
            self.raise(ahead, (lo, hi));
            return;
        };
        self.raise(behind, (lo + from, lo + till));
        if from > 0 {
            self.raise(ahead, (lo, lo + from - 1));
        }
        if lo + till < hi {
            self.raise(ahead, (lo + till + 1, hi));
        }
    }

    /// Through these ticks one more stands before the object.
    fn raise(&mut self, number: usize, (from, till): Span) {
        if from == 0 {
            self.firsts[number] += 1;
        } else {
            self.later[number].push(2 * from + 1);
        }
        if till < self.last {
            self.later[number].push(2 * (till + 1));
        }
    }

    /// Finds the ticks at which fewer than k stand before the object.
    fn sweep(&mut self, number: usize, k: u32, near: &mut Vec<Span>) {
        near.clear();
        let later = &mut self.later[number];
        later.sort_unstable();
        let (mut from, mut rank) = (0, self.firsts[number]);
        for change in later {
            let tick = *change / 2;
            if rank < k && from < tick {
                push(near, (from, tick - 1));
            }
            from = tick;
            rank = if *change % 2 == 1 { rank + 1 } else { rank - 1 };
        }
        if rank < k {
            push(near, (from, self.last));
        }
    }
}

/// The numbers of `0..=last` at which a line or a parabola that opens upwards is at most 0.
fn low(f: &Quad, last: u32) -> Option<Span> {
    let last = i64::from(last);
    let (first, end) = match (f.c <= 0, f.at(last) <= 0) {
        (true, true) => (0, last),
        (true, false) => (0, edge(f, 0, last)),
        (false, true) => (edge(f, last, 0), last),
        (false, false) => {
            let lowest = lowest(f, last)?;
            (edge(f, lowest, 0), edge(f, lowest, last))
        }
    };
    Some((first as u32, end as u32))
}

/// A number at which it is at most 0, where it is above at 0 and at the last number.
fn lowest(f: &Quad, last: i64) -> Option<i64> {
    if f.b >= 0 || f.a * i128::from(last) + f.b <= 0 {
        return None;
    }
    let below = (-f.b / f.a) as i64;
    [below, below + 1].into_iter().find(|k| f.at(*k) <= 0)
}

/// The last number at which it is at most 0, on the way from one where it is to one where it is above. The root is the
/// guess, and steps from it are doubled.
fn edge(f: &Quad, mut low: i64, mut above: i64) -> i64 {
    let upwards = low < above;
    let (mut guess, mut step) = (root(f, upwards) as i64, 1);
    while low.abs_diff(above) > 1 {
        let (from, till) = (low.min(above), low.max(above));
        let middle = if till - from <= 2 * step { from + (till - from) / 2 } else { guess.clamp(from + 1, till - 1) };
        let is_low = f.at(middle) <= 0;
        *(if is_low { &mut low } else { &mut above }) = middle;
        guess = if is_low == upwards { middle + step } else { middle - step };
        step *= 2;
    }
    low
}

/// About the place at which it is 0, the greater one or the smaller one.
fn root(f: &Quad, greater: bool) -> f64 {
    let (a, b, c) = (f.a as f64, f.b as f64, f.c as f64);
    let around = (b * b - a * c).max(0.0).sqrt();
    // no difference of numbers that may be nearly the same
    let sum = if b < 0.0 { around - b } else { -around - b };
    if greater == (b < 0.0) { sum / a } else { c / sum }
}
