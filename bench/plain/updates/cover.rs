// How many bindings of a target hold at each tick. A change of one of them costs the spans that it changes, not all of
// the target's.
use super::spans::{Span, push};
use std::collections::BTreeMap;

/// From each tick here to the next one so many hold; none before the first.
#[derive(Clone, Default)]
pub struct Cover(BTreeMap<u32, u32>);

impl Cover {
    fn count(&self, tick: u32) -> u32 {
        self.0.range(..=tick).next_back().map_or(0, |step| *step.1)
    }

    /// One binding more, or one fewer, holds at these ticks.
    pub fn add(&mut self, (lo, hi): Span, more: bool) {
        for end in [lo, hi + 1] {
            let count = self.count(end);
            self.0.insert(end, count);
        }
        for (_, count) in self.0.range_mut(lo..=hi) {
            *count = if more { *count + 1 } else { *count - 1 };
        }
        for end in [lo, hi + 1] {
            if end.checked_sub(1).map_or(0, |before| self.count(before)) == self.count(end) {
                self.0.remove(&end);
            }
        }
    }

    /// Adds the ticks of the window at which some binding holds.
    pub fn spans(&self, (lo, hi): Span, out: &mut Vec<Span>) {
        let (mut from, mut count) = (lo, self.count(lo));
        for (tick, next) in self.0.range(lo..=hi).filter(|step| *step.0 > lo) {
            if count > 0 {
                push(out, (from, tick - 1));
            }
            (from, count) = (*tick, *next);
        }
        if count > 0 {
            push(out, (from, hi));
        }
    }

    pub fn holds(&self, tick: u32) -> bool {
        self.count(tick) > 0
    }

    /// The first tick after now at which the number changes.
    pub fn turn(&self, now: u32) -> Option<u32> {
        self.0.range(now + 1..).next().map(|step| *step.0)
    }
}
