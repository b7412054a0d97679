// Slices of a window, each with the objects that suffice there.
use super::courses::Courses;
use crate::spans::Span;

/// A pair takes as long as so many looks at the bounds of one object.
const PAIR: usize = 4;

/// Ticks, and the numbers of the objects that suffice there.
pub struct Slice {
    pub window: Span,
    pub kept: Vec<u32>,
}

/// The slices that were cut so far.
pub struct Plan<'a> {
    courses: &'a Courses,
    k: usize,
    slices: Vec<Slice>,
    /// Of the objects that are looked at the least squares, and the greatest ones.
    least: Vec<(u32, i128)>,
    greatest: Vec<i128>,
}

impl Plan<'_> {
    /// The slices of a window, from the first tick on.
    pub fn of(courses: &Courses, k: usize, window: Span) -> Vec<Slice> {
        let mut plan = Plan { courses, k, slices: Vec::new(), least: Vec::new(), greatest: Vec::new() };
        let all: Vec<u32> = (0..courses.places.len() as u32).collect();
        plan.cut(window, &all, usize::MAX);
        plan.slices
    }

    /// Adds the slices of some ticks, and tells what they cost. Where that is the limit or more, they won't be used.
    fn cut(&mut self, window: Span, among: &[u32], limit: usize) -> usize {
        let kept = self.kept(window, among);
        let whole = self.cost(kept.len());
        if window.0 < window.1 && kept.len() > 2 * self.k + 8 {
            let before = self.slices.len();
            if let Some(cost) = self.halves(window, &kept, limit.min(whole)) {
                return cost;
            }
            self.slices.truncate(before);
        }
        self.slices.push(Slice { window, kept });
        whole
    }

    /// The same for both halves of the ticks; nothing where they cost the limit or more.
    fn halves(&mut self, (lo, hi): Span, kept: &[u32], limit: usize) -> Option<usize> {
        let middle = lo + (hi - lo) / 2;
        let mut cost = 2 * kept.len();
        for half in [(lo, middle), (middle + 1, hi)] {
            let left = limit.checked_sub(cost).filter(|left| *left > 0)?;
            cost += self.cut(half, kept, left);
        }
        (cost < limit).then_some(cost)
    }

    /// What all pairs of so many objects cost.
    fn cost(&self, kept: usize) -> usize {
        if kept > self.k { PAIR * kept * (kept - 1) / 2 } else { 0 }
    }

    /// The objects but for those that k others are nearer than throughout the ticks.
    fn kept(&mut self, window: Span, among: &[u32]) -> Vec<u32> {
        self.least.clear();
        self.greatest.clear();
        for number in among {
            if let Some((least, greatest)) = self.courses.bounds(*number, window) {
                self.least.push((*number, least));
                self.greatest.push(greatest);
            }
        }
        let is_more = self.greatest.len() > self.k;
        let limit = if is_more { *self.greatest.select_nth_unstable(self.k - 1).1 } else { i128::MAX };
        self.least.iter().filter(|(_, least)| *least <= limit).map(|(number, _)| *number).collect()
    }
}
