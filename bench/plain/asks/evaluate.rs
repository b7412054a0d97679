// Queries by spans: each atom is solved once for each part of the window in which its objects move on lines, and the
// operators merge spans. A binding's formula is evaluated in buffers that are used again for the next one.
use super::circle;
use super::spans::{self, Quad, Span, push, solve};
use super::store::{Motion, Store};
use crate::grammar::{Legs, Word};
use crate::history::{Cell, Vector};
use crate::resolve::{Formula, Part, Term, Unit, has};

type Point = (i64, i64);

#[derive(Clone, Copy, PartialEq)]
enum Value {
    Num(i128),
    Text(Word),
}

/// The first tick of the next leg; past all ticks where there is none.
pub fn turn(vector: &Vector, tick: u32) -> u32 {
    let Legs { firsts, .. } = &vector.function;
    let mut at = u64::from(vector.updatetime);
    for (_, length) in firsts {
        at += u64::from(*length);
        if at > u64::from(tick) {
            return at.min(u64::from(u32::MAX)) as u32;
        }
    }
    u32::MAX
}

#[derive(Default)]
pub struct Buffers(Vec<Vec<Span>>);

impl Buffers {
    pub fn take(&mut self) -> Vec<Span> {
        self.0.pop().unwrap_or_default()
    }

    pub fn put(&mut self, mut spans: Vec<Span>) {
        spans.clear();
        self.0.push(spans);
    }
}

/// One object for each variable, and the window's first and last tick.
pub struct Binding<'a> {
    store: &'a Store,
    cells: [&'a [Cell]; 4],
    motions: [Motion; 4],
    /// Of straight motions the position at the window's first tick, and the step.
    starts: [(Point, Point); 4],
    pub first: u32,
    pub last: u32,
}

impl<'a> Binding<'a> {
    /// Without objects.
    pub fn new(store: &'a Store, (first, last): Span) -> Binding<'a> {
        let starts = [((0, 0), (0, 0)); 4];
        Binding { store, cells: [&[]; 4], motions: [Motion::default(); 4], starts, first, last }
    }

    fn axis(&self, variable: usize, axis: usize) -> &'a Vector {
        match &self.cells[variable][axis] {
            Cell::Dyn(vector) => vector,
            _ => unreachable!("a point has x and y"),
        }
    }

    /// The position and the step of a point object at a tick, and the first tick of another step.
    fn course(&self, variable: usize, tick: u32) -> (Point, Point, u32) {
        if tick == self.first && self.motions[variable].is_straight {
            let (position, step) = self.starts[variable];
            return (position, step, u32::MAX);
        }
        let (x, y) = (self.axis(variable, 0), self.axis(variable, 1));
        let step = (i64::from(x.slope_at(tick)), i64::from(y.slope_at(tick)));
        ((x.at(tick), y.at(tick)), step, turn(x, tick).min(turn(y, tick)))
    }

    /// Sets the object of a variable.
    pub fn bind(&mut self, variable: usize, cells: &'a [Cell], motion: Motion) {
        let Motion { value, slope, since, .. } = motion;
        let step = (i64::from(slope.0), i64::from(slope.1));
        let at = |value: i64, step: i64, since: u32| value + step * i64::from(self.first - since);
        self.starts[variable] = ((at(value.0, step.0, since.0), at(value.1, step.1, since.1)), step);
        self.motions[variable] = motion;
        self.cells[variable] = cells;
    }

    fn inside(&self, variable: usize, region: usize, (lo, hi): Span, out: &mut Vec<Span>) {
        let corners = &self.store.history.regions[region].points;
        let mut from = lo;
        while from <= hi {
            let (at, step, next) = self.course(variable, from);
            let end = hi.min(next - 1);
            let edges = corners.iter().zip(corners.iter().cycle().skip(1)).map(|(p, q)| {
                let edge = (q.0 - p.0, q.1 - p.1);
                (spans::cross(edge, step), spans::cross(edge, (at.0 - p.0, at.1 - p.1)))
            });
            if let Some((first, last)) = spans::all_at_least(edges, end - from) {
                push(out, (from + first, from + last));
            }
            from = next;
        }
    }

    fn distance(&self, a: usize, b: usize, op: u8, c: i128, (lo, hi): Span, out: &mut Vec<Span>) {
        let mut from = lo;
        while from <= hi {
            let (p, v, next) = self.course(a, from);
            let (q, w, other) = self.course(b, from);
            let next = next.min(other);
            let end = hi.min(next - 1);
            Quad::of((p.0 - q.0, p.1 - q.1), (v.0 - w.0, v.1 - w.1)).compare(op, c, (from, end), out);
            from = next;
        }
    }

    /// More than two points are judged at each tick at which they are near to each other.
    fn circle(&self, radius: i128, variables: &[usize], (lo, hi): Span, out: &mut Vec<Span>) {
        let [_, _, _, ..] = variables else {
            return match variables {
                [a, b] => self.distance(*a, *b, 1, 2 * radius, (lo, hi), out),
                _ => push(out, (lo, hi)),
            };
        };
        let mut near = vec![(lo, hi)];
        for (i, a) in variables.iter().enumerate() {
            for b in &variables[i + 1..] {
                let (mut pair, mut both) = (Vec::new(), Vec::new());
                self.distance(*a, *b, 1, 2 * radius, (lo, hi), &mut pair);
                spans::meet(&near, &pair, &mut both);
                near = both;
            }
        }
        for tick in near.into_iter().flat_map(|(lo, hi)| lo..=hi) {
            let wide = |point: Point| (i128::from(point.0), i128::from(point.1));
            let points: Vec<_> = variables.iter().map(|v| wide(self.course(*v, tick).0)).collect();
            if circle::fits(radius, &points) {
                push(out, (tick, tick));
            }
        }
    }

    /// The value at the tick and the change with each tick, and the first tick of another change.
    fn line(&self, term: &Term, values: &[Value], tick: u32) -> (Value, i128, u32) {
        let (mut sum, mut slope, mut next) = (0, 0, u32::MAX);
        for factor in term {
            let (start, change, turn) = match &factor.unit {
                Unit::Literal(number) => (*number, 0, u32::MAX),
                Unit::Text(text) => return (Value::Text(*text), 0, u32::MAX),
                Unit::Bound(place) => match values[*place] {
                    Value::Num(number) => (number, 0, u32::MAX),
                    text => return (text, 0, u32::MAX),
                },
                Unit::Time => (1000 * i128::from(tick), 1000, u32::MAX),
                Unit::Attr(variable, place) => match &self.cells[*variable][*place] {
                    Cell::Num(number) => (i128::from(*number), 0, u32::MAX),
                    Cell::Text(text) => return (Value::Text(*text), 0, u32::MAX),
                    Cell::Dyn(vector) => {
                        (i128::from(vector.at(tick)), i128::from(vector.slope_at(tick)), turn(vector, tick))
                    }
                },
                Unit::Sub(variable, place, part) => match (&self.cells[*variable][*place], part) {
                    (Cell::Dyn(vector), Part::Value) => (i128::from(vector.value), 0, u32::MAX),
                    (Cell::Dyn(vector), Part::UpdateTime) => (1000 * i128::from(vector.updatetime), 0, u32::MAX),
                    (Cell::Dyn(vector), Part::Function) => (i128::from(vector.slope_at(tick)), 0, turn(vector, tick)),
                    _ => unreachable!("a part of a static attribute is refused"),
                },
            };
            let times = if factor.minus { -factor.times } else { factor.times };
            sum += times * start;
            slope += times * change;
            next = next.min(turn);
        }
        (Value::Num(sum), slope, next)
    }

    fn compare(&self, (left, op, right): (&Term, u8, &Term), values: &[Value], (lo, hi): Span, out: &mut Vec<Span>) {
        let mut from = lo;
        while from <= hi {
            let (left, step, next) = self.line(left, values, from);
            let (right, other_step, other) = self.line(right, values, from);
            let next = next.min(other);
            let window = (from, hi.min(next - 1));
            match (left, right) {
                (Value::Num(left), Value::Num(right)) => solve(step - other_step, left - right, op, window, out),
                (left, right) if (left == right) == (op == 2) => push(out, window),
                _ => {}
            }
            from = next;
        }
    }

    fn assigned(
        &self,
        (term, f): (&Term, &Formula),
        values: &[Value],
        (lo, hi): Span,
        out: &mut Vec<Span>,
        free: &mut Buffers,
    ) {
        let names =
            |term: &Term| term.iter().any(|factor| matches!(factor.unit, Unit::Bound(place) if place == values.len()));
        let is_named = has(f, &|part| match part {
            Formula::Compare(left, _, right) => names(left) || names(right),
            Formula::Assign(term, _) => names(term),
            _ => false,
        });
        if !is_named {
            return self.ticks(f, &[values, &[Value::Num(0)]].concat(), (lo, hi), out, free);
        }
        let mut body = free.take();
        let mut from = lo;
        while from <= hi {
            let (value, step, next) = self.line(term, values, from);
            // a value that changes stands for one tick
            let next = if step == 0 { next } else { from + 1 };
            let values = [values, &[value]].concat();
            body.clear();
            self.ticks(f, &values, (from, hi.min(next - 1)), &mut body, free);
            body.iter().for_each(|span| push(out, *span));
            from = next;
        }
        free.put(body);
    }

    /// Adds the ticks of the binding's window at which the formula holds.
    pub fn judge(&self, formula: &Formula, out: &mut Vec<Span>, free: &mut Buffers) {
        self.ticks(formula, &[], (self.first, self.last), out, free);
    }

    /// Adds the ticks of the window at which the formula holds.
    fn ticks(&self, formula: &Formula, values: &[Value], window: Span, out: &mut Vec<Span>, free: &mut Buffers) {
        let (lo, hi) = window;
        let reach = |most: u64| (lo, (u64::from(hi) + most).min(u64::from(self.last)) as u32);
        match formula {
            Formula::Truth(truth) => {
                if *truth {
                    push(out, window);
                }
            }
            Formula::Compare(left, op, right) => self.compare((left, *op, right), values, window, out),
            Formula::Inside(variable, region) => self.inside(*variable, *region, window, out),
            Formula::Outside(variable, region) => {
                let mut inside = free.take();
                self.inside(*variable, *region, window, &mut inside);
                spans::complement(&inside, window, out);
                free.put(inside);
            }
            Formula::Dist(a, b, op, c) => self.distance(*a, *b, *op, *c, window, out),
            Formula::Sphere(radius, variables) => self.circle(*radius, variables, window, out),
            Formula::Not(f) => self.unary(f, values, window, free, |f| spans::complement(f, window, out)),
            Formula::Next(f) => {
                self.unary(f, values, reach(1), free, |f| spans::some(f, 1, 1, window, out));
            }
            Formula::Some(least, most, f) => {
                self.unary(f, values, reach(*most), free, |f| spans::some(f, *least, *most, window, out));
            }
            Formula::Every(most, f) => self.every(*most, f, values, window, (reach(*most), out, free)),
            Formula::Assign(term, f) => self.assigned((term, f), values, window, out, free),
            Formula::And(f, g) => self.both((f, g), values, window, free, |f, g, _| spans::meet(f, g, out)),
            Formula::Or(f, g) => {
                let (mut left, mut right) = (free.take(), free.take());
                self.ticks(f, values, window, &mut left, free);
                self.ticks(g, values, window, &mut right, free);
                spans::unite(&left, &right, out);
                free.put(left);
                free.put(right);
            }
            Formula::Until(least, most, f, g) => {
                self.both((g, f), values, reach(*most), free, |g, f, free| {
                    let (mut after, mut at_once) = (free.take(), free.take());
                    spans::until(f, g, *least, *most, window, &mut after);
                    if *least == 0 {
                        spans::clip(g, window, &mut at_once);
                    }
                    spans::unite(&after, &at_once, out);
                    free.put(after);
                    free.put(at_once);
                });
            }
        }
    }

    fn unary(&self, f: &Formula, values: &[Value], window: Span, free: &mut Buffers, then: impl FnOnce(&[Span])) {
        let mut part = free.take();
        self.ticks(f, values, window, &mut part, free);
        then(&part);
        free.put(part);
    }

    /// Both formulas; the second one only where the first one holds at some tick.
    fn both(
        &self,
        (f, g): (&Formula, &Formula),
        values: &[Value],
        window: Span,
        free: &mut Buffers,
        then: impl FnOnce(&[Span], &[Span], &mut Buffers),
    ) {
        let (mut left, mut right) = (free.take(), free.take());
        self.ticks(f, values, window, &mut left, free);
        if !left.is_empty() {
            self.ticks(g, values, window, &mut right, free);
            then(&left, &right, free);
        }
        free.put(left);
        free.put(right);
    }

    /// The ticks from which f holds at each tick: all but those with a tick without f before them.
    fn every(
        &self,
        most: u64,
        f: &Formula,
        values: &[Value],
        window: Span,
        (reach, out, free): (Span, &mut Vec<Span>, &mut Buffers),
    ) {
        let (mut part, mut without, mut before) = (free.take(), free.take(), free.take());
        self.ticks(f, values, reach, &mut part, free);
        spans::complement(&part, reach, &mut without);
        spans::some(&without, 0, most, window, &mut before);
        spans::complement(&before, window, out);
        free.put(part);
        free.put(without);
        free.put(before);
    }
}
