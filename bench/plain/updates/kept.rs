// The spans of each node of a formula that looks ahead, of a binding that stays present. What a node says of the past
// can change only where it looks so far ahead, so that a write renews the ends of all spans and goes over none before.
use super::evaluate::{Binding, Buffers};
use super::spans::{self, Span};
use crate::resolve::Formula;

pub struct Node {
    spans: Vec<Span>,
    /// What the last renewal put in the place of what, from a tick on.
    pub old: Vec<Span>,
    pub new: Vec<Span>,
    parts: Vec<Node>,
}

/// The spans that end at the tick or later.
fn since(spans: &[Span], tick: u32) -> &[Span] {
    &spans[spans.partition_point(|span| span.1 < tick)..]
}

/// The first tick of the run that reaches the tick before this one; this one where none does.
fn run_to(spans: &[Span], tick: u32) -> u32 {
    since(spans, tick.saturating_sub(1)).first().map_or(tick, |span| span.0.min(tick))
}

/// The first tick from which on the last of these ticks before `tick` is nearer than `least`.
fn after_last(spans: &[Span], tick: u32, least: u64) -> u32 {
    let begun = &spans[..spans.partition_point(|span| span.0 < tick)];
    let last = begun.last().map(|span| u64::from(span.1.min(tick - 1)) + 1);
    last.map_or(0, |last| last.saturating_sub(least) as u32)
}

fn before(tick: u32, most: u64) -> u32 {
    u64::from(tick).saturating_sub(most) as u32
}

impl Node {
    /// Without spans.
    pub fn new(formula: &Formula) -> Node {
        let parts = match formula {
            Formula::And(f, g) | Formula::Or(f, g) | Formula::Until(_, _, f, g) => vec![Node::new(f), Node::new(g)],
            Formula::Not(f) | Formula::Next(f) | Formula::Some(_, _, f) | Formula::Every(_, f) => vec![Node::new(f)],
            _ => Vec::new(),
        };
        Node { spans: Vec::new(), old: Vec::new(), new: Vec::new(), parts }
    }

    /// Judges the atoms from the binding's first tick on, and answers the first tick at which the formula may hold where
    /// it didn't, or the other way. None is before `first`.
    pub fn renew(&mut self, formula: &Formula, binding: &Binding, first: u32, free: &mut Buffers) -> u32 {
        let mut part = |i: usize, f: &Formula| self.parts[i].renew(f, binding, first, free);
        let from = match formula {
            Formula::And(f, g) | Formula::Or(f, g) | Formula::Until(_, _, f, g) => part(0, f).min(part(1, g)),
            Formula::Not(f) | Formula::Next(f) | Formula::Some(_, _, f) | Formula::Every(_, f) => part(0, f),
            _ => binding.first,
        };
        let from = self.earliest(formula, from).max(first);
        self.new.clear();
        match self.parts.as_slice() {
            [] => binding.judge(formula, &mut self.new, free),
            [f] => unary(formula, since(&f.spans, from), (from, binding.last), &mut self.new),
            [f, g, ..] => {
                let parts = (since(&f.spans, from), since(&g.spans, from));
                binary(formula, parts, (from, binding.last), &mut self.new);
            }
        }
        self.put(from);
        from
    }

    /// The first tick at which the formula may change, where its parts do from a tick on. Before it they tell enough.
    fn earliest(&self, formula: &Formula, changed: u32) -> u32 {
        let spans = |i: usize| self.parts[i].spans.as_slice();
        match formula {
            Formula::Next(_) => changed.saturating_sub(1),
            Formula::Some(least, most, _) => before(changed, *most).max(after_last(spans(0), changed, *least)),
            Formula::Every(most, _) => before(changed, *most).max(run_to(spans(0), changed)),
            Formula::Until(least, most, ..) => {
                let goal = after_last(spans(1), changed, *least);
                before(changed, *most).max(run_to(spans(0), changed)).max(goal)
            }
            _ => changed,
        }
    }

    /// Puts the new spans, none of which ends before the tick, in the place of those from it on.
    fn put(&mut self, from: u32) {
        self.old.clear();
        self.old.extend(since(&self.spans, from).iter().map(|span| (span.0.max(from), span.1)));
        self.spans.truncate(self.spans.partition_point(|span| span.0 < from));
        if let Some(last) = self.spans.last_mut() {
            last.1 = last.1.min(from - 1);
        }
        self.new.iter_mut().for_each(|span| span.0 = span.0.max(from));
        self.new.iter().for_each(|span| spans::push(&mut self.spans, *span));
    }
}

fn unary(formula: &Formula, f: &[Span], window: Span, out: &mut Vec<Span>) {
    match formula {
        Formula::Not(_) => spans::complement(f, window, out),
        Formula::Next(_) => spans::some(f, 1, 1, window, out),
        Formula::Some(least, most, _) => spans::some(f, *least, *most, window, out),
        Formula::Every(most, _) => {
            let (mut without, mut ended) = (Vec::new(), Vec::new());
            spans::complement(f, window, &mut without);
            spans::some(&without, 0, *most, window, &mut ended);
            spans::complement(&ended, window, out);
        }
        _ => unreachable!("it has one part"),
    }
}

fn binary(formula: &Formula, (f, g): (&[Span], &[Span]), window: Span, out: &mut Vec<Span>) {
    match formula {
        Formula::And(..) => spans::meet(f, g, out),
        Formula::Or(..) => spans::unite(f, g, out),
        Formula::Until(least, most, ..) => {
            let (mut after, mut at_once) = (Vec::new(), Vec::new());
            spans::until(f, g, *least, *most, window, &mut after);
            if *least == 0 {
                spans::clip(g, window, &mut at_once);
            }
            spans::unite(&after, &at_once, out);
        }
        _ => unreachable!("it has two parts"),
    }
}
