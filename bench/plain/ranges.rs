// Indexes of a dynamic attribute in plain Rust without proofs: the yardstick of the `range` inputs of `places`. For each
// slice of ticks that a question needs, an index keeps the first and the last strip of values that each object reaches in
// it, two numbers of 32 bits in one list; a `range` makes the strips of the objects that were written since anew, goes
// through the lists of its slices, and solves the objects whose strips meet those of the bounds.
#[allow(dead_code)]
#[path = "grammar.rs"]
mod grammar;
#[allow(dead_code)]
#[path = "session/history.rs"]
mod history;
#[allow(dead_code)]
#[path = "asks/spans.rs"]
mod spans;
#[allow(dead_code)]
#[path = "asks/store.rs"]
mod store;

use grammar::{Command, Word, put_count};
use history::{Cell, Refusal, Vector};
use spans::{Span, push};
use std::io::{self, Read, Write};
use store::{Objects, Store};

const PIECE: usize = 1 << 16;
const SLICES: usize = 64;
/// How many ticks a slice has.
const SLICE: u32 = 1_000;

/// The first and the last of some strips; where there is none, the first is above the last.
type Strips = (i32, i32);

struct Index {
    class: usize,
    attribute: usize,
    width: i64,
    from: u32,
    /// The strips of each object, for each slice that was asked for.
    columns: Vec<Vec<Strips>>,
    /// The objects whose strips aren't those of their last states, each once or more.
    stale: Vec<usize>,
}

/// A part of a vector on one line: its ticks, the value at the first of them, and the change with each.
struct Leg {
    ticks: Span,
    value: i64,
    slope: i64,
}

/// Goes over the parts of a vector within a window, which isn't before its update.
fn over_legs(vector: &Vector, (lo, hi): Span, mut take: impl FnMut(Leg)) {
    let (mut value, mut from) = (vector.value, u64::from(vector.updatetime));
    let steady = (vector.function.last, u32::MAX);
    for (slope, length) in vector.function.firsts.iter().chain([&steady]) {
        let (slope, next) = (i64::from(*slope), from + u64::from(*length));
        let (first, end) = (from.max(u64::from(lo)), (next - 1).min(u64::from(hi)));
        if first <= end {
            let ticks = (first as u32, end as u32);
            take(Leg { ticks, value: value + slope * (first - from) as i64, slope });
        }
        value += slope * i64::from(*length);
        from = next;
    }
}

/// The ticks of a leg at which the value is between two bounds.
fn between(leg: &Leg, (least, greatest): (i64, i64)) -> Option<Span> {
    let last = i64::from(leg.ticks.1 - leg.ticks.0);
    let (low, high, slope) = match leg.slope {
        0 if (least..=greatest).contains(&leg.value) => return Some(leg.ticks),
        0 => return None,
        slope if slope > 0 => (least - leg.value, greatest - leg.value, slope),
        slope => (leg.value - greatest, leg.value - least, -slope),
    };
    let first = (low + slope - 1).div_euclid(slope).max(0);
    let end = high.div_euclid(slope).min(last);
    (first <= end).then(|| (leg.ticks.0 + first as u32, leg.ticks.0 + end as u32))
}

impl Index {
    fn vector<'a>(&self, objects: &'a Objects, place: usize) -> &'a Vector {
        match &objects.cells(place)[self.attribute] {
            Cell::Dyn(vector) => vector,
            _ => unreachable!("an index of what isn't dynamic is refused"),
        }
    }

    fn strips_of(&self, objects: &Objects, place: usize, slice: usize) -> Strips {
        let vector = self.vector(objects, place);
        let first = self.from + slice as u32 * SLICE;
        let window = (first.max(vector.updatetime), first + SLICE - 1);
        if window.0 > window.1 || !objects.present[place] {
            return (i32::MAX, i32::MIN);
        }
        let (mut least, mut greatest) = (i64::MAX, i64::MIN);
        over_legs(vector, window, |leg| {
            let end = leg.value + leg.slope * i64::from(leg.ticks.1 - leg.ticks.0);
            least = least.min(leg.value).min(end);
            greatest = greatest.max(leg.value).max(end);
        });
        (self.strip(least), self.strip(greatest))
    }

    fn strip(&self, value: i64) -> i32 {
        value.div_euclid(self.width).clamp(i64::from(i32::MIN + 1), i64::from(i32::MAX - 1)) as i32
    }

    /// Makes the strips that are stale or missing, in the slices from the first to the last.
    fn renew(&mut self, objects: &Objects, slices: std::ops::RangeInclusive<usize>) {
        let count = objects.names.len();
        let mut stale = std::mem::take(&mut self.stale);
        for slice in 0..SLICES {
            let mut column = std::mem::take(&mut self.columns[slice]);
            if !column.is_empty() || slices.contains(&slice) {
                let known = column.len();
                for place in stale.iter().filter(|place| **place < known) {
                    column[*place] = self.strips_of(objects, *place, slice);
                }
                column.extend((known..count).map(|place| self.strips_of(objects, place, slice)));
            }
            self.columns[slice] = column;
        }
        stale.clear();
        self.stale = stale;
    }

    fn put_range(&mut self, store: &Store, span: u32, bounds: (i64, i64), out: &mut Vec<u8>) {
        let (objects, now) = (&store.classes[self.class], store.history.clock);
        let slice_of = |tick: u32| ((tick - self.from) / SLICE) as usize;
        let slices = slice_of(now)..=slice_of(now + span);
        self.renew(objects, slices.clone());
        let asked = (self.strip(bounds.0), self.strip(bounds.1));
        let meets = |strips: &Strips| asked.0 <= strips.1 && strips.0 <= asked.1;
        let mut found: Vec<usize> = Vec::new();
        for column in &self.columns[slices] {
            found.extend(column.iter().enumerate().filter(|(_, strips)| meets(strips)).map(|(place, _)| place));
        }
        if span >= SLICE - (now - self.from) % SLICE {
            found.sort_unstable();
            found.dedup();
        }
        let mut ticks = Vec::new();
        for place in found {
            ticks.clear();
            if objects.present[place] && bounds.0 <= bounds.1 {
                over_legs(self.vector(objects, place), (now, now + span), |leg| {
                    between(&leg, bounds).into_iter().for_each(|run| push(&mut ticks, run));
                });
            }
            put_row(out, objects.names[place].text(), &ticks, now);
        }
    }
}

fn put_row(out: &mut Vec<u8>, name: &[u8], ticks: &[Span], now: u32) {
    let Some(first) = ticks.first() else { return };
    out.extend_from_slice(if first.0 <= now { b"now " } else { b"later " });
    out.extend_from_slice(name);
    out.extend_from_slice(b" :");
    for (lo, hi) in ticks {
        out.push(b' ');
        put_count(out, u64::from(*lo));
        out.extend_from_slice(b"..");
        put_count(out, u64::from(*hi));
    }
    out.push(b'\n');
}

/// The places of a class, and of an attribute in it.
fn attribute_of(store: &Store, class: &Word, attribute: &Word) -> Result<(usize, usize), Refusal> {
    let class = *store.history.class_names.get(class).ok_or(Refusal::UnknownName)?;
    let attribute = store.history.classes[class].attribute(attribute).ok_or(Refusal::UnknownName)?;
    Ok((class, attribute))
}

/// Answers a line. Whether it has a reply.
fn step(
    line: &[u8],
    store: &mut Store,
    indexes: &mut Vec<Index>,
    tokens: &mut Vec<grammar::Token>,
    out: &mut Vec<u8>,
) -> Result<bool, Refusal> {
    match grammar::read(line, tokens)? {
        Command::Nothing => return Ok(false),
        Command::Index(class, attribute, width) => {
            let (class, attribute) = attribute_of(store, &class, &attribute)?;
            let columns = vec![Vec::new(); SLICES];
            indexes.push(Index { class, attribute, width, from: store.history.clock, columns, stale: Vec::new() });
        }
        Command::Range(span, class, attribute, least, greatest) => {
            let of = attribute_of(store, &class, &attribute)?;
            let index = indexes.iter_mut().find(|index| (index.class, index.attribute) == of);
            index.ok_or(Refusal::UnknownName)?.put_range(store, span, (least, greatest), out);
        }
        command @ (Command::Class(..) | Command::Region(..) | Command::Tick(_)) => _ = store.apply(command)?,
        command @ (Command::Insert(..) | Command::Update(..) | Command::Remove(_)) => {
            if let Some((class, place)) = store.apply(command)? {
                indexes.iter_mut().filter(|index| index.class == class).for_each(|index| index.stale.push(place));
            }
        }
        _ => return Err(Refusal::BadSyntax),
    }
    Ok(true)
}

fn main() -> io::Result<()> {
    let mut input = Vec::new();
    io::stdin().lock().read_to_end(&mut input)?;
    let mut output = io::stdout().lock();
    let (mut store, mut indexes) = (Store::default(), Vec::new());
    let (mut tokens, mut out) = (Vec::new(), Vec::new());
    for line in input.split_inclusive(|byte| *byte == b'\n') {
        let line = match line.strip_suffix(b"\n") {
            Some(line) => line.strip_suffix(b"\r").unwrap_or(line),
            None => line,
        };
        match step(line, &mut store, &mut indexes, &mut tokens, &mut out) {
            Ok(has_reply) => out.extend_from_slice(if has_reply { b"ok\n" } else { b"" }),
            Err(refusal) => writeln!(out, "refused {} {refusal:?}", refusal as u8)?,
        }
        if out.len() >= PIECE {
            output.write_all(&out)?;
            out.clear();
        }
    }
    output.write_all(&out)
}
