// Long asks of one comparison of an attribute with a number: these alone are solved by division in place of a walk
// over the ticks, since spans of up to 100,000,000 ticks are compared too.
use super::history::{Cell, rest};
use crate::grammar::{Formula, Query, Signed, Unit, Word};

/// `RETRIEVE o FROM class o WHERE object.attribute op number`.
pub struct Question<'a> {
    pub attribute: &'a Word,
    pub op: u8,
    pub number: i64,
}

impl Question<'_> {
    pub fn of(query: &Query) -> Option<Question<'_>> {
        let [_] = query.targets.as_slice() else { return None };
        let [_] = query.from.as_slice() else { return None };
        let Formula::Compare(left, op, right) = &query.formula else { return None };
        let [Signed { minus: false, times: None, unit: Unit::Attr(_, attribute) }] = left.as_slice() else {
            return None;
        };
        let [Signed { minus, times: None, unit: Unit::Literal(size) }] = right.as_slice() else { return None };
        let number = if *minus { -size } else { *size };
        Some(Question { attribute, op: *op, number })
    }

    /// The spans of `now..=end` at which the cell, as it is from now on, compares so.
    pub fn spans(&self, cell: &Cell, now: u32, end: u32) -> Vec<(u32, u32)> {
        Spans::of(cell, self.op, self.number, now, end).0
    }
}

/// Spans of ticks in ascending order, no two of them neighbours.
#[derive(Default)]
struct Spans(Vec<(u32, u32)>);

impl Spans {
    fn push(&mut self, lo: u32, hi: u32) {
        match self.0.last_mut() {
            Some(last) if last.1 + 1 == lo => last.1 = hi,
            _ => self.0.push((lo, hi)),
        }
    }

    /// Adds the ticks of `lo..=hi` at which `slope * (tick - lo) + start` compares with 0 as `op` says.
    fn solve(&mut self, slope: i64, start: i64, op: u8, lo: u32, hi: u32) {
        let last = i64::from(hi - lo);
        // the first and the last number up to `last` at which a * k + b is at most 0
        let at_most = |a: i64, b: i64| match a.signum() {
            0 => {
                if b <= 0 {
                    (0, last)
                } else {
                    (1, 0)
                }
            }
            1 => (0, last.min((-b).div_euclid(a))),
            _ => ((-(-b).div_euclid(-a)).max(0), last),
        };
        let less = at_most(slope, start + 1);
        let more = at_most(-slope, -start + 1);
        let below = at_most(slope, start);
        let above = at_most(-slope, -start);
        let parts = match op {
            0 => [less, (1, 0)],
            1 => [below, (1, 0)],
            2 => [(below.0.max(above.0), below.1.min(above.1)), (1, 0)],
            3 if slope > 0 => [less, more],
            3 => [more, less],
            4 => [above, (1, 0)],
            _ => [more, (1, 0)],
        };
        for (first, end) in parts {
            if first <= end {
                self.push(lo + first as u32, lo + end as u32);
            }
        }
    }

    fn of(cell: &Cell, op: u8, number: i64, now: u32, end: u32) -> Spans {
        let mut spans = Spans::default();
        match cell {
            Cell::Num(value) => spans.solve(0, value - number, op, now, end),
            Cell::Dyn(vector) => {
                let function = rest(&vector.function, now - vector.updatetime);
                let (mut from, mut value) = (now, vector.at(now));
                for (slope, length) in &function.firsts {
                    if end - from < *length {
                        spans.solve(i64::from(*slope), value - number, op, from, end);
                        return spans;
                    }
                    spans.solve(i64::from(*slope), value - number, op, from, from + length - 1);
                    value += i64::from(*slope) * i64::from(*length);
                    from += length;
                }
                spans.solve(i64::from(function.last), value - number, op, from, end);
            }
            Cell::Text(_) => {}
        }
        spans
    }
}
