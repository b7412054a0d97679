// The rows of a query whose formula is joined of parts by AND. A part is judged as soon as its variables are bound, and
// the objects that it leaves are listed once for all bindings of the variables that it doesn't name. Variables that
// several parts share come first.
use super::evaluate::{Binding, Buffers};
use super::spans::{self, Span};
use super::store::Store;
use crate::resolve::{Formula, Query, Term, Unit};

/// The variables of a formula, as bits.
fn variables(formula: &Formula) -> u8 {
    match formula {
        Formula::Truth(_) => 0,
        Formula::Compare(left, _, right) => named(left) | named(right),
        Formula::Inside(variable, _) | Formula::Outside(variable, _) => 1 << variable,
        Formula::Dist(a, b, ..) => 1 << a | 1 << b,
        Formula::Sphere(_, all) => all.iter().fold(0, |bits, variable| bits | 1 << variable),
        Formula::Not(f) | Formula::Next(f) | Formula::Some(_, _, f) | Formula::Every(_, f) => variables(f),
        Formula::And(f, g) | Formula::Or(f, g) | Formula::Until(_, _, f, g) => variables(f) | variables(g),
        Formula::Assign(term, f) => named(term) | variables(f),
    }
}

fn named(term: &Term) -> u8 {
    term.iter().fold(0, |bits, factor| match factor.unit {
        Unit::Attr(variable, _) | Unit::Sub(variable, ..) => bits | 1 << variable,
        _ => bits,
    })
}

/// The parts of a formula; those who fit a circle are near to each other, too.
fn add_parts(formula: &Formula, parts: &mut Vec<Formula>) {
    match formula {
        Formula::And(f, g) => {
            add_parts(f, parts);
            add_parts(g, parts);
        }
        Formula::Sphere(radius, all) if all.len() > 2 => {
            for (i, a) in all.iter().enumerate() {
                parts.extend(all[i + 1..].iter().map(|b| Formula::Dist(*a, *b, 1, 2 * radius)));
            }
            parts.push(formula.clone());
        }
        _ => parts.push(formula.clone()),
    }
}

/// A variable in its turn: the parts that it completes, and after which step its objects are listed.
struct Step {
    variable: usize,
    parts: Vec<Formula>,
    after: Option<usize>,
}

fn steps(query: &Query) -> Vec<Step> {
    let mut parts = Vec::new();
    add_parts(&query.formula, &mut parts);
    let mut order: Vec<usize> = (0..query.classes.len()).collect();
    let shares = |variable: &usize| {
        parts.iter().map(variables).filter(|bits| bits.count_ones() > 1 && bits >> variable & 1 == 1).count()
    };
    order.sort_by_key(|variable| std::cmp::Reverse(shares(variable)));
    let mut bound = 0;
    let mut step = |place: usize| {
        bound |= 1 << order[place];
        let complete = |part: &mut Formula| variables(part) & !bound == 0;
        let parts: Vec<Formula> = parts.extract_if(.., complete).collect();
        let named = parts.iter().fold(0, |bits, part| bits | variables(part));
        let after = (0..place).rev().find(|earlier| named >> order[*earlier] & 1 == 1);
        Step { variable: order[place], parts, after }
    };
    (0..query.classes.len()).map(&mut step).collect()
}

/// Objects by place, each with its ticks.
#[derive(Default)]
struct List {
    objects: Vec<(usize, usize)>,
    spans: Vec<Span>,
}

struct Join<'a, 'b> {
    store: &'a Store,
    query: &'a Query,
    steps: &'a [Step],
    binding: Binding<'a>,
    key: Vec<usize>,
    lists: Vec<List>,
    free: &'b mut Buffers,
}

impl Join<'_, '_> {
    /// Adds the ticks at which all parts of the step hold.
    fn judge(&mut self, step: &Step, out: &mut Vec<Span>) {
        let Some((first, others)) = step.parts.split_first() else {
            return out.push((self.binding.first, self.binding.last));
        };
        let mut all = self.free.take();
        self.binding.judge(first, &mut all, self.free);
        for part in others {
            if all.is_empty() {
                break;
            }
            let (mut ticks, mut both) = (self.free.take(), self.free.take());
            self.binding.judge(part, &mut ticks, self.free);
            spans::meet(&all, &ticks, &mut both);
            self.free.put(std::mem::replace(&mut all, both));
            self.free.put(ticks);
        }
        out.extend_from_slice(&all);
        self.free.put(all);
    }

    /// Lists the objects of the steps that come after this one, or of those that come first. Whether each has some.
    fn list(&mut self, after: Option<usize>) -> bool {
        let steps = self.steps;
        (0..steps.len()).filter(|place| steps[*place].after == after).all(|place| {
            let step = &steps[place];
            let mut list = std::mem::take(&mut self.lists[place]);
            (list.objects.clear(), list.spans.clear());
            let objects = &self.store.classes[self.query.classes[step.variable]];
            for object in (0..objects.names.len()).filter(|object| objects.present[*object]) {
                self.binding.bind(step.variable, objects.cells(object), objects.motions[object]);
                let before = list.spans.len();
                self.judge(step, &mut list.spans);
                if before < list.spans.len() {
                    list.objects.push((object, list.spans.len()));
                }
            }
            self.lists[place] = list;
            !self.lists[place].objects.is_empty()
        })
    }

    /// Goes through the listed objects of a step, which meet the ticks so far.
    fn descend(&mut self, place: usize, so_far: &[Span], row: &mut dyn FnMut(&[usize], &[Span])) {
        if place == self.steps.len() {
            return row(&self.key, so_far);
        }
        let list = std::mem::take(&mut self.lists[place]);
        let variable = self.steps[place].variable;
        let objects = &self.store.classes[self.query.classes[variable]];
        let mut from = 0;
        for (object, end) in &list.objects {
            let mut ticks = self.free.take();
            spans::meet(so_far, &list.spans[from..*end], &mut ticks);
            from = *end;
            self.key[variable] = *object;
            self.binding.bind(variable, objects.cells(*object), objects.motions[*object]);
            if !ticks.is_empty() && self.list(Some(place)) {
                self.descend(place + 1, &ticks, row);
            }
            self.free.put(ticks);
        }
        self.lists[place] = list;
    }
}

/// Calls `row` for each binding with ticks in the window, in the order of FROM.
pub fn joined(store: &Store, query: &Query, window: Span, free: &mut Buffers, mut row: impl FnMut(&[usize], &[Span])) {
    let steps = steps(query);
    let mut join = Join {
        store,
        query,
        steps: &steps,
        binding: Binding::new(store, window),
        key: vec![0; steps.len()],
        lists: Vec::new(),
        free,
    };
    join.lists.resize_with(steps.len(), List::default);
    if !join.list(None) {
        return;
    }
    if steps.is_sorted_by_key(|step| step.variable) {
        return join.descend(0, &[window], &mut row);
    }
    let mut rows = Vec::new();
    join.descend(0, &[window], &mut |key, spans| rows.push((key.to_vec(), spans.to_vec())));
    rows.sort_unstable();
    rows.iter().for_each(|(key, spans)| row(key, spans));
}
