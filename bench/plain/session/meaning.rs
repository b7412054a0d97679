// Where a query holds, by its definition: each formula is judged at each tick of the window for each binding.
use super::circle;
use super::history::{Cell, History, Object};
use super::resolve::{Factor, Formula, Part, Query, Term, Unit};
use crate::grammar::Word;
use std::collections::BTreeMap;
use std::hash::{DefaultHasher, Hash, Hasher};

#[derive(Clone, Copy, PartialEq)]
enum Value {
    Num(i128),
    Text(Word),
}

/// Positions that may be off by an error on both axes: what holds surely, or what may hold.
#[derive(Clone, Copy)]
pub struct Blur {
    pub sure: bool,
    pub error: i128,
    /// Where there is a seed, what holds where each position is off by what the seed tells.
    pub world: Option<u64>,
}

impl Blur {
    /// How far a position of an object is off along the two axes at a tick, often by the whole error.
    fn off(&self, seed: u64, name: &Word, tick: u32) -> (i128, i128) {
        let mut hasher = DefaultHasher::new();
        (seed, name, tick).hash(&mut hasher);
        let drawn = hasher.finish();
        let along = |bits: u64| match bits % 4 {
            0 => -self.error,
            1 => self.error,
            _ => i128::from(bits / 4) % (2 * self.error + 1) - self.error,
        };
        (along(drawn & 0xffff_ffff), along(drawn >> 32))
    }
}

/// Whether a number of this sign compares with 0 as `op` says.
fn compares(op: u8, sign: i128) -> bool {
    match op {
        0 => sign < 0,
        1 => sign <= 0,
        2 => sign == 0,
        3 => sign != 0,
        4 => sign >= 0,
        _ => sign > 0,
    }
}

/// A window's last tick, and one object for each variable.
struct Case<'a> {
    history: &'a History,
    objects: &'a [&'a Object],
    last: u32,
    blur: Option<Blur>,
}

impl Case<'_> {
    fn unit(&self, unit: &Unit, values: &[Value], tick: u32) -> Option<Value> {
        let number = match unit {
            Unit::Literal(number) => *number,
            Unit::Text(text) => return Some(Value::Text(*text)),
            Unit::Bound(place) => return Some(values[*place]),
            Unit::Time => 1000 * i128::from(tick),
            Unit::Attr(variable, place) => match &self.objects[*variable].state(tick)?[*place] {
                Cell::Num(number) => i128::from(*number),
                Cell::Text(text) => return Some(Value::Text(*text)),
                Cell::Dyn(vector) => i128::from(vector.at(tick)),
            },
            Unit::Sub(variable, place, part) => match &self.objects[*variable].state(tick)?[*place] {
                Cell::Dyn(vector) => match part {
                    Part::Value => i128::from(vector.value),
                    Part::UpdateTime => 1000 * i128::from(vector.updatetime),
                    Part::Function => i128::from(vector.slope_at(tick)),
                },
                _ => unreachable!("a part of a static attribute is refused"),
            },
        };
        Some(Value::Num(number))
    }

    /// The value at the tick; none where a named object is absent.
    fn term(&self, term: &Term, values: &[Value], tick: u32) -> Option<Value> {
        let mut sum = 0;
        for Factor { minus, times, unit } in term {
            match self.unit(unit, values, tick)? {
                Value::Text(text) => return Some(Value::Text(text)),
                Value::Num(number) => sum += if *minus { -times * number } else { times * number },
            }
        }
        Some(Value::Num(sum))
    }

    fn position(&self, variable: usize, tick: u32) -> Option<(i128, i128)> {
        let object = self.objects[variable];
        let (x, y) = position(object, tick)?;
        let (dx, dy) = match self.blur {
            Some(blur @ Blur { world: Some(seed), .. }) => blur.off(seed, &object.name, tick),
            _ => (0, 0),
        };
        Some((x + dx, y + dy))
    }

    /// By how much what is asked is judged in no one world.
    fn blur(&self) -> Option<Blur> {
        self.blur.filter(|blur| blur.world.is_none())
    }

    /// Whether an edge of the region has all these points strictly on its right.
    fn is_beside_edge(&self, region: usize, points: &[(i128, i128)]) -> bool {
        let corners = &self.history.regions[region].points;
        (0..corners.len()).any(|i| {
            let (p, q) = (wide(corners[i]), wide(corners[(i + 1) % corners.len()]));
            points.iter().all(|o| (q.0 - p.0) * (o.1 - p.1) - (q.1 - p.1) * (o.0 - p.0) < 0)
        })
    }

    fn is_inside(&self, region: usize, point: (i128, i128)) -> bool {
        !self.is_beside_edge(region, &[point])
    }

    fn inside(&self, region: usize, point: (i128, i128)) -> bool {
        match self.blur() {
            None => self.is_inside(region, point),
            Some(blur) if blur.sure => corners(point, blur.error).iter().all(|corner| self.is_inside(region, *corner)),
            Some(blur) => !self.is_beside_edge(region, &corners(point, blur.error)),
        }
    }

    fn outside(&self, region: usize, point: (i128, i128)) -> bool {
        match self.blur() {
            None => !self.is_inside(region, point),
            Some(blur) if blur.sure => self.is_beside_edge(region, &corners(point, blur.error)),
            Some(blur) => !corners(point, blur.error).iter().all(|corner| self.is_inside(region, *corner)),
        }
    }

    fn distance(&self, a: usize, b: usize, op: u8, c: i128, tick: u32) -> Option<bool> {
        let (p, q) = (self.position(a, tick)?, self.position(b, tick)?);
        if c < 0 {
            return Some(matches!(op, 3..=5));
        }
        let (dx, dy) = ((p.0 - q.0).abs(), (p.1 - q.1).abs());
        let Some(blur) = self.blur() else { return Some(compares(op, dx * dx + dy * dy - c * c)) };
        let error = if std::ptr::eq(self.objects[a], self.objects[b]) { 0 } else { 2 * blur.error };
        let squares = |x: i128, y: i128| x * x + y * y;
        let low = squares((dx - error).max(0), (dy - error).max(0)) - c * c;
        let high = squares(dx + error, dy + error) - c * c;
        Some(match (op, blur.sure) {
            (0 | 1, true) => compares(op, high),
            (0 | 1, false) => compares(op, low),
            (4 | 5, true) => compares(op, low),
            (4 | 5, false) => compares(op, high),
            (2, true) => low == 0 && high == 0,
            (2, false) => low <= 0 && 0 <= high,
            (_, true) => high < 0 || low > 0,
            (_, false) => !(low == 0 && high == 0),
        })
    }

    /// Whether an atom holds at the tick; none where a named object is absent.
    fn atom(&self, atom: &Formula, values: &[Value], tick: u32) -> Option<bool> {
        Some(match atom {
            Formula::Truth(truth) => *truth,
            Formula::Compare(left, op, right) => {
                match (self.term(left, values, tick)?, self.term(right, values, tick)?) {
                    (Value::Num(left), Value::Num(right)) => compares(*op, left - right),
                    (left, right) => (left == right) == (*op == 2),
                }
            }
            Formula::Inside(variable, region) => self.inside(*region, self.position(*variable, tick)?),
            Formula::Outside(variable, region) => self.outside(*region, self.position(*variable, tick)?),
            Formula::Dist(a, b, op, c) => self.distance(*a, *b, *op, *c, tick)?,
            Formula::Sphere(radius, variables) => {
                let points: Option<Vec<_>> = variables.iter().map(|v| self.position(*v, tick)).collect();
                circle::fits(*radius, &points?)
            }
            _ => unreachable!("no atom"),
        })
    }

    /// Whether the formula holds, at each tick from `from` to the last, with these values bound.
    fn truths(&self, formula: &Formula, values: &[Value], from: u32) -> Vec<bool> {
        let count = (self.last - from) as usize + 1;
        let of = |part: &Formula| self.truths(part, values, from);
        // the places of the ticks from a tick and a number to it and another number, up to the last
        let range = |t: usize, least: u64, most: u64| {
            let end = (t as u64 + most + 1).min(count as u64) as usize;
            ((t as u64 + least).min(count as u64) as usize)..end
        };
        match formula {
            Formula::Not(f) => of(f).iter().map(|f| !f).collect(),
            Formula::And(f, g) => of(f).iter().zip(of(g)).map(|(f, g)| *f && g).collect(),
            Formula::Or(f, g) => of(f).iter().zip(of(g)).map(|(f, g)| *f || g).collect(),
            Formula::Next(f) => {
                let f = of(f);
                (0..count).map(|t| t + 1 < count && f[t + 1]).collect()
            }
            Formula::Some(least, most, f) => {
                let f = of(f);
                (0..count).map(|t| range(t, *least, *most).any(|u| f[u])).collect()
            }
            Formula::Every(most, f) => {
                let f = of(f);
                (0..count).map(|t| range(t, 0, *most).all(|u| f[u])).collect()
            }
            Formula::Until(least, most, f, g) => {
                let (f, g) = (of(f), of(g));
                let holds_at = |t: usize| {
                    // the ticks before which f holds from t on
                    let mut reach = range(t, 0, *most).take_while(|u| *u == t || f[u - 1]);
                    reach.any(|u| u >= t + *least as usize && g[u])
                };
                (0..count).map(holds_at).collect()
            }
            Formula::Assign(term, f) => self.assigned(term, f, values, from),
            atom => (from..=self.last).map(|tick| self.atom(atom, values, tick) == Some(true)).collect(),
        }
    }

    fn assigned(&self, term: &Term, f: &Formula, values: &[Value], from: u32) -> Vec<bool> {
        // the last value that was bound, the tick from which the formula was judged with it, and what it gave
        let mut known: Option<(Value, u32, Vec<bool>)> = None;
        let mut all = Vec::new();
        for tick in from..=self.last {
            let Some(value) = self.term(term, values, tick) else {
                all.push(false);
                continue;
            };
            if known.as_ref().is_none_or(|known| known.0 != value) {
                let values = [values, &[value]].concat();
                known = Some((value, tick, self.truths(f, &values, tick)));
            }
            all.push(known.as_ref().is_some_and(|known| known.2[(tick - known.1) as usize]));
        }
        all
    }
}

fn wide(point: (i64, i64)) -> (i128, i128) {
    (i128::from(point.0), i128::from(point.1))
}

fn corners((x, y): (i128, i128), error: i128) -> [(i128, i128); 4] {
    [(x - error, y - error), (x + error, y - error), (x + error, y + error), (x - error, y + error)]
}

/// The position of a point object at the tick; none where it is absent.
pub fn position(object: &Object, tick: u32) -> Option<(i128, i128)> {
    match object.state(tick)? {
        [Cell::Dyn(x), Cell::Dyn(y), ..] => Some((i128::from(x.at(tick)), i128::from(y.at(tick)))),
        _ => unreachable!("a position of an object that is no point is refused"),
    }
}

/// For each tuple of targets that has a tick, by the places of the names in their classes, whether it holds at
/// each tick of a window.
pub struct Answer {
    pub from: u32,
    pub rows: BTreeMap<Vec<usize>, Vec<bool>>,
}

impl Answer {
    pub fn holds(&self, key: &[usize], tick: u32) -> bool {
        let place = tick.checked_sub(self.from).map(|place| place as usize);
        let row = self.rows.get(key);
        row.zip(place).is_some_and(|(row, place)| row.get(place) == Some(&true))
    }
}

/// The answer over `from..=last`, without rows where that is empty.
pub fn answer(history: &History, query: &Query, blur: Option<Blur>, from: u32, last: u32) -> Answer {
    let mut rows = BTreeMap::new();
    let names: Vec<&[u32]> = query.classes.iter().map(|class| &history.classes[*class].objects[..]).collect();
    let mut binding = vec![0; names.len()];
    if from > last || names.iter().any(|names| names.is_empty()) {
        return Answer { from, rows };
    }
    loop {
        let objects: Vec<&Object> =
            binding.iter().zip(&names).map(|(place, names)| &history.objects[names[*place] as usize]).collect();
        let case = Case { history, objects: &objects, last, blur };
        let mut ticks = case.truths(&query.formula, &[], from);
        for (holds, tick) in ticks.iter_mut().zip(from..) {
            *holds &= objects.iter().all(|object| object.state(tick).is_some());
        }
        if ticks.contains(&true) {
            let key: Vec<usize> = query.targets.iter().map(|variable| binding[*variable]).collect();
            let row: &mut Vec<bool> = rows.entry(key).or_insert_with(|| vec![false; ticks.len()]);
            row.iter_mut().zip(ticks).for_each(|(row, holds)| *row |= holds);
        }
        // the next binding in the order of FROM
        let Some(moving) = (0..binding.len()).rev().find(|v| binding[*v] + 1 < names[*v].len()) else { break };
        binding[moving] += 1;
        binding[moving + 1..].fill(0);
    }
    Answer { from, rows }
}

/// The runs of the ticks at which it holds, the first place being the tick `from`.
pub fn runs(from: u32, ticks: impl Iterator<Item = bool>) -> Vec<(u32, u32)> {
    let mut runs: Vec<(u32, u32)> = Vec::new();
    for (tick, _) in (from..).zip(ticks).filter(|(_, holds)| *holds) {
        match runs.last_mut() {
            Some(last) if last.1 + 1 == tick => last.1 = tick,
            _ => runs.push((tick, tick)),
        }
    }
    runs
}
