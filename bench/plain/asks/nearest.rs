// Which objects of a class are among the k nearest to another one, and when. The window is cut into slices of time,
// each with the objects that suffice there: one that k others are nearer than throughout is left out. In a slice each
// pair is solved once, and a sweep over the ticks at which the rank of an object changes tells when it is near.
#[path = "nearest/courses.rs"]
mod courses;
#[path = "nearest/plan.rs"]
mod plan;
#[path = "nearest/ranks.rs"]
mod ranks;

use super::answer::put_spans;
use super::evaluate::turn;
use super::spans::{Quad, Span};
use super::store::{Motion, Objects, Store};
use crate::grammar::Word;
use crate::history::{Cell, LAST_TICK, Refusal, Vector};
use courses::{Courses, Part};
use plan::Plan;
use ranks::Ranks;

const LONGEST: u32 = 1_000_000;
const BINDINGS: u64 = 1_000_000;

/// Adds the rows of the objects of a class that are among the k nearest to an object from now on.
pub fn put_nearest(
    store: &Store,
    (span, k): (u32, u32),
    (to, class): (&Word, &Word),
    out: &mut Vec<u8>,
) -> Result<(), Refusal> {
    let (to, class) = judged(store, span, to, class)?;
    let now = store.history.clock;
    let names = &store.classes[class].names;
    for (place, row) in nearest_rows(store, (to, class), k, (now, now + span)) {
        let Some(first) = row.first() else { continue };
        out.extend_from_slice(if first.0 == now { b"now " } else { b"later " });
        out.extend_from_slice(names[place].text());
        put_spans(out, &row);
    }
    Ok(())
}

/// The objects of a class by their places in it, but for one, each with the ticks at which it is among the k nearest to
/// that one. The window begins no earlier than the last write.
pub fn nearest_rows(
    store: &Store,
    (to, class): (u32, usize),
    k: u32,
    window: Span,
) -> impl Iterator<Item = (usize, Vec<Span>)> {
    let courses = seen_from(store, to, class, window);
    let rows = rows(&courses, k, window);
    courses.places.into_iter().zip(rows)
}

/// The number of the object and that of the class, or the first refusal.
fn judged(store: &Store, span: u32, to: &Word, class: &Word) -> Result<(u32, usize), Refusal> {
    let history = &store.history;
    let to = *history.object_names.get(to).ok_or(Refusal::UnknownName)?;
    let class = *history.class_names.get(class).ok_or(Refusal::UnknownName)?;
    if !history.classes[class].point || !history.classes[history.objects[to as usize].class].point {
        return Err(Refusal::WrongKind);
    }
    if span > LONGEST || span > LAST_TICK - history.clock {
        return Err(Refusal::SpanRange);
    }
    let capacity = u64::from(history.classes[class].capacity);
    if capacity * capacity > BINDINGS {
        return Err(Refusal::BindingLimit);
    }
    Ok((to, class))
}

/// For each object the ticks of the window at which fewer than k stand before it.
fn rows(courses: &Courses, k: u32, window: Span) -> Vec<Vec<Span>> {
    let mut rows = vec![Vec::new(); courses.places.len()];
    let mut ranks = Ranks::new(courses, k);
    for slice in Plan::of(courses, k as usize, window) {
        ranks.add_rows(&slice, &mut rows);
    }
    rows
}

/// The present objects of a class but for one, as they are seen from that one; none where it is absent. No object comes
/// or goes from now on.
fn seen_from(store: &Store, to: u32, class: usize, window: Span) -> Courses {
    let mut courses = Courses::default();
    let own = (store.history.objects[to as usize].class, store.places[to as usize]);
    let Some(center) = Mover::of(&store.classes[own.0], own.1) else { return courses };
    let objects = &store.classes[class];
    for place in (0..objects.names.len()).filter(|place| (class, *place) != own) {
        if let Some(object) = Mover::of(objects, place) {
            add_parts(&mut courses, &center, &object, window);
            courses.end(place);
        }
    }
    courses
}

fn add_parts(courses: &mut Courses, center: &Mover, object: &Mover, (lo, hi): Span) {
    let mut first = lo;
    while first <= hi {
        let (p, v, next) = center.course(first);
        let (q, w, other) = object.course(first);
        let next = next.min(other);
        let square = Quad::of((q.0 - p.0, q.1 - p.1), (w.0 - v.0, w.1 - v.1));
        courses.parts.all.push(Part { first, last: hi.min(next - 1), square });
        first = next;
    }
}

/// How a present object moves from now on.
struct Mover<'a> {
    motion: Motion,
    cells: &'a [Cell],
}

impl<'a> Mover<'a> {
    /// Nothing where the object is absent.
    fn of(objects: &'a Objects, place: usize) -> Option<Mover<'a>> {
        objects.present[place].then(|| Mover { motion: objects.motions[place], cells: objects.cells(place) })
    }

    fn axis(&self, axis: usize) -> &'a Vector {
        match &self.cells[axis] {
            Cell::Dyn(vector) => vector,
            _ => unreachable!("a point has x and y"),
        }
    }

    /// The position and the step at a tick, and the first tick of another step.
    fn course(&self, tick: u32) -> ((i64, i64), (i64, i64), u32) {
        let Motion { value, slope, since, is_straight } = self.motion;
        if is_straight {
            let at = |value: i64, slope: i32, since: u32| value + i64::from(slope) * i64::from(tick - since);
            let position = (at(value.0, slope.0, since.0), at(value.1, slope.1, since.1));
            return (position, (i64::from(slope.0), i64::from(slope.1)), u32::MAX);
        }
        let (x, y) = (self.axis(0), self.axis(1));
        let step = (i64::from(x.slope_at(tick)), i64::from(y.slope_at(tick)));
        ((x.at(tick), y.at(tick)), step, turn(x, tick).min(turn(y, tick)))
    }
}
