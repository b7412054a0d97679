// Watched queries in plain Rust without proofs: the yardstick of `updates`. The rows of each query are kept from now
// to its expiry, those of a kept query from its entry on. A writing judges the bindings of the written object alone, from
// now on, and a tick looks at the rows that begin or end before it, by a queue of those ticks. Where the targets aren't
// all variables in the order of FROM, each has a count of the rows that hold at each tick. A kept query that looks ahead
// keeps the spans of each part of its formula, and a write renews their ends; it may have no assignment, and beside it no
// object is removed. With the words `--session NAME` it goes on from a text that was saved: the yardstick of `load`. Such a
// text has only the commands that it answers.
#[allow(dead_code)]
#[path = "asks/answer.rs"]
mod answer;
#[path = "updates/bindings.rs"]
mod bindings;
#[path = "session/circle.rs"]
mod circle;
#[path = "updates/cover.rs"]
mod cover;
#[path = "asks/evaluate.rs"]
mod evaluate;
#[allow(dead_code)]
#[path = "grammar.rs"]
mod grammar;
#[allow(dead_code)]
#[path = "session/history.rs"]
mod history;
#[path = "asks/join.rs"]
mod join;
#[path = "updates/kept.rs"]
mod kept;
#[path = "updates/loading.rs"]
mod loading;
#[path = "session/resolve.rs"]
mod resolve;
#[path = "asks/spans.rs"]
mod spans;
#[path = "asks/store.rs"]
mod store;

use bindings::bindings;
use cover::Cover;
use evaluate::{Binding, Buffers};
use grammar::{Command, Word};
use history::Refusal;
use join::joined;
use kept::Node;
use resolve::{Formula, Query};
use spans::Span;
use std::cmp::Reverse;
use std::collections::{BTreeMap, BinaryHeap, HashMap};
use std::io::{self, Read, Write};
use std::{env, fs};
use store::{Place, Store};

const PIECE: usize = 1 << 16;

/// Bindings of a page, the rows of which are counted.
const PAGE: usize = 1 << 10;

/// The rows of all bindings by number, in the order of the bindings; a binding without ticks has no spans.
struct Rows {
    all: Vec<Box<[Span]>>,
    counts: Vec<u32>,
}

impl Rows {
    fn new(bindings: usize) -> Rows {
        let mut all = Vec::new();
        all.resize_with(bindings, Box::default);
        Rows { all, counts: vec![0; bindings.div_ceil(PAGE)] }
    }

    fn put(&mut self, number: u32, spans: &[Span]) {
        let row = &mut self.all[number as usize];
        let count = &mut self.counts[number as usize / PAGE];
        *count += u32::from(!spans.is_empty());
        *count -= u32::from(!row.is_empty());
        *row = spans.into();
    }

    /// A row of a page without rows is known without a look at it.
    fn get(&self, number: u32) -> &[Span] {
        if self.counts[number as usize / PAGE] == 0 { &[] } else { &self.all[number as usize] }
    }

    /// The rows with ticks.
    fn iter(&self) -> impl Iterator<Item = (u32, &[Span])> {
        let pages = self.counts.iter().zip(self.all.chunks(PAGE)).zip((0..).step_by(PAGE));
        pages.filter(|((count, _), _)| **count > 0).flat_map(|((_, page), first)| {
            let rows = (first..).zip(page).map(|(number, row)| (number, &row[..]));
            rows.filter(|(_, row)| !row.is_empty())
        })
    }
}

/// Objects of several classes in one number, in the order of their places. Each stride is the number from an object to
/// the next one.
struct Numbers(Vec<usize>);

impl Numbers {
    fn new(query: &Query, variables: impl Iterator<Item = usize>, store: &Store) -> Numbers {
        let capacities: Vec<usize> =
            variables.map(|variable| store.history.classes[query.classes[variable]].capacity as usize).collect();
        Numbers((1..=capacities.len()).map(|after| capacities[after..].iter().product()).collect())
    }

    fn number(&self, places: impl Iterator<Item = usize>) -> u32 {
        places.zip(&self.0).map(|(place, stride)| place * stride).sum::<usize>() as u32
    }

    fn places(&self, number: u32) -> [usize; 4] {
        let mut places = [0; 4];
        let mut left = number as usize;
        for (place, stride) in places.iter_mut().zip(&self.0) {
            *place = left / stride;
            left %= stride;
        }
        places
    }
}

struct Watch {
    name: Word,
    query: Query,
    numbers: Numbers,
    targets: Numbers,
    /// The first tick of a kept query's rows.
    entry: Option<u32>,
    expiry: u32,
    rows: Rows,
    /// Of the bindings of a kept query that looks ahead.
    nodes: Option<HashMap<u32, Kept>>,
    /// Of each target by number; none where each binding is a target of its own.
    covers: Option<Vec<Cover>>,
    /// At least the next tick at which each target begins or ends to hold. One that was replaced may have more.
    turns: BinaryHeap<Reverse<(u32, u32)>>,
}

/// The first tick after now at which a row changes.
fn turn(spans: &[Span], now: u32) -> Option<u32> {
    let next = spans[spans.partition_point(|span| span.1 < now)..].iter();
    next.flat_map(|span| [span.0, span.1 + 1]).find(|tick| *tick > now)
}

fn holds(spans: &[Span], tick: u32) -> bool {
    spans.get(spans.partition_point(|span| span.1 < tick)).is_some_and(|span| span.0 <= tick)
}

/// A formula's spans from the tick on at which all objects of the binding were there.
struct Kept {
    first: u32,
    node: Node,
}

/// What one row becomes from a tick on.
struct Change {
    number: u32,
    from: u32,
    old: Vec<Span>,
    new: Vec<Span>,
}

/// Renews the parts of a binding's formula. What its row becomes, where that is something else.
fn renewed(
    nodes: &mut HashMap<u32, Kept>,
    number: u32,
    formula: &Formula,
    binding: &Binding,
    free: &mut Buffers,
) -> Option<Change> {
    let kept = nodes.entry(number).or_insert_with(|| Kept { first: binding.first, node: Node::new(formula) });
    let from = kept.node.renew(formula, binding, kept.first, free);
    let Node { old, new, .. } = &kept.node;
    (old != new).then(|| Change { number, from, old: old.clone(), new: new.clone() })
}

impl Watch {
    /// Without rows.
    fn new(name: Word, query: Query, entry: Option<u32>, expiry: u32, store: &Store) -> Watch {
        let numbers = Numbers::new(&query, 0..query.classes.len(), store);
        let targets = Numbers::new(&query, query.targets.iter().copied(), store);
        let rows = Rows::new(query.bindings(&store.history) as usize);
        let covers = (!query.targets.iter().copied().eq(0..query.classes.len())).then(|| {
            let capacity = |target: &usize| store.history.classes[query.classes[*target]].capacity as usize;
            vec![Cover::default(); query.targets.iter().map(capacity).product()]
        });
        let nodes = (entry.is_some() && looks_ahead(&query.formula)).then(HashMap::new);
        Watch { name, query, numbers, targets, entry, expiry, rows, nodes, covers, turns: BinaryHeap::new() }
    }

    /// The number of a binding's target.
    fn target(&self, number: u32) -> u32 {
        if self.covers.is_none() {
            return number;
        }
        let places = self.numbers.places(number);
        self.targets.number(self.query.targets.iter().map(|variable| places[*variable]))
    }

    fn put_tuple(&self, out: &mut Vec<u8>, word: &[u8], store: &Store, target: u32) {
        out.extend_from_slice(word);
        out.extend_from_slice(self.name.text());
        answer::put_tuple(out, store, &self.query, &self.targets.places(target));
    }

    /// The line of a target that begins or ends to hold.
    fn put_turn(&self, out: &mut Vec<u8>, store: &Store, target: u32, before: bool, after: bool) {
        if before != after {
            self.put_tuple(out, if after { b"enter " } else { b"leave " }, store, target);
            out.push(b'\n');
        }
    }

    fn replace(&mut self, number: u32, from: u32, (old, new): (&[Span], &[Span]), now: u32) {
        let target = self.target(number);
        let next = match &mut self.covers {
            None => turn(new, now),
            Some(covers) => {
                let cover = &mut covers[target as usize];
                old.iter().for_each(|span| cover.add(*span, false));
                new.iter().for_each(|span| cover.add(*span, true));
                cover.turn(now)
            }
        };
        self.turns.extend(next.map(|tick| Reverse((tick, target))));
        match self.entry {
            Some(entry) if entry < from => {
                let mut all = Vec::new();
                spans::clip(self.rows.get(number), (entry, from - 1), &mut all);
                new.iter().for_each(|span| spans::push(&mut all, *span));
                self.rows.put(number, &all);
            }
            _ => self.rows.put(number, new),
        }
    }

    /// The changed rows of the bindings, of which a variable may be held to one object and some are skipped.
    fn judge(
        &mut self,
        held: [Option<usize>; 4],
        store: &Store,
        free: &mut Buffers,
        skips: impl Fn(&[usize]) -> bool,
    ) -> Vec<Change> {
        let window = (store.history.clock, self.expiry);
        let Watch { query, numbers, rows, nodes, .. } = self;
        let (mut changes, mut old, mut new) = (Vec::new(), Vec::new(), Vec::new());
        bindings(store, query, window, held, |key, binding| {
            if skips(key) {
                return;
            }
            let number = numbers.number(key.iter().copied());
            if let Some(nodes) = nodes {
                changes.extend(renewed(nodes, number, &query.formula, binding, free));
                return;
            }
            (old.clear(), new.clear());
            spans::clip(rows.get(number), window, &mut old);
            binding.judge(&query.formula, &mut new, free);
            if old != new {
                changes.push(Change { number, from: window.0, old: old.clone(), new: new.clone() });
            }
        });
        changes
    }

    /// The rows of an object that is gone, which end now.
    fn ended(&self, is_of: impl Fn(&[usize]) -> bool, now: u32) -> Vec<Change> {
        let rows = self.rows.iter().filter(|row| is_of(&self.numbers.places(row.0)));
        let ends = rows.map(|(number, row)| {
            let mut old = Vec::new();
            spans::clip(row, (now, self.expiry), &mut old);
            Change { number, from: now, old, new: Vec::new() }
        });
        ends.filter(|change| !change.old.is_empty()).collect()
    }

    /// The changed rows among those of the written object, in order.
    fn changes(&mut self, (class, place): Place, store: &Store, free: &mut Buffers) -> Vec<Change> {
        let classes = self.query.classes.clone();
        let has = |key: &[usize], variable: usize| classes[variable] == class && key[variable] == place;
        if !store.classes[class].present[place] {
            return self.ended(|key| (0..classes.len()).any(|variable| has(key, variable)), store.history.clock);
        }
        let mut changes = Vec::new();
        for variable in (0..classes.len()).filter(|variable| classes[*variable] == class) {
            let mut held = [None; 4];
            held[variable] = Some(place);
            let told_before = |key: &[usize]| (0..variable).any(|earlier| has(key, earlier));
            changes.append(&mut self.judge(held, store, free, told_before));
        }
        changes.sort_unstable_by_key(|change| change.number);
        changes
    }

    /// Renews the rows of the written object.
    fn renew(&mut self, written: Place, store: &Store, free: &mut Buffers) {
        let now = store.history.clock;
        if now > self.expiry {
            return;
        }
        for Change { number, from, old, new } in self.changes(written, store, free) {
            self.replace(number, from, (&old, &new), now);
        }
    }

    /// Renews the rows of the written object and adds the lines of what changed.
    fn refresh(&mut self, written: Place, store: &Store, free: &mut Buffers, out: &mut Vec<u8>) {
        let now = store.history.clock;
        if now > self.expiry {
            return;
        }
        let changes = self.changes(written, store, free);
        if self.covers.is_some() {
            return self.refresh_targets(changes, store, out);
        }
        for Change { number, from, old, new } in changes {
            self.put_change(number, (&old, &new), store, out);
            self.replace(number, from, (&old, &new), now);
        }
    }

    /// What a target gains and loses is looked for where its bindings changed.
    fn refresh_targets(&mut self, changes: Vec<Change>, store: &Store, out: &mut Vec<u8>) {
        let mut by_target: BTreeMap<u32, Vec<Change>> = BTreeMap::new();
        for change in changes {
            by_target.entry(self.target(change.number)).or_default().push(change);
        }
        for (target, changes) in by_target {
            let (mut touched, mut sorted) = (Vec::new(), Vec::new());
            changes.iter().for_each(|change| touched.extend(change.old.iter().chain(&change.new)));
            answer::normalise(&mut touched, &mut sorted);
            let old = self.held(target, &touched);
            for Change { number, from, old, new } in &changes {
                self.replace(*number, *from, (old, new), store.history.clock);
            }
            let new = self.held(target, &touched);
            self.put_change(target, (&old, &new), store, out);
        }
    }

    /// Those of the ticks at which the target holds.
    fn held(&self, target: u32, ticks: &[Span]) -> Vec<Span> {
        let mut held = Vec::new();
        if let Some(covers) = &self.covers {
            ticks.iter().for_each(|span| covers[target as usize].spans(*span, &mut held));
        }
        held
    }

    /// The lines of a target that held at the old ticks and holds at the new ones.
    fn put_change(&self, target: u32, (old, new): (&[Span], &[Span]), store: &Store, out: &mut Vec<u8>) {
        let now = store.history.clock;
        for (word, there, not_there) in [(&b"gain "[..], new, old), (b"lose ", old, new)] {
            let (mut without, mut only) = (Vec::new(), Vec::new());
            spans::complement(not_there, (self.entry.unwrap_or(now), self.expiry), &mut without);
            spans::meet(there, &without, &mut only);
            if !only.is_empty() {
                self.put_tuple(out, word, store, target);
                answer::put_spans(out, &only);
            }
        }
        self.put_turn(out, store, target, holds(old, now), holds(new, now));
    }

    /// The targets that may have turned until now, in order.
    fn due(&mut self, now: u32) -> Vec<u32> {
        let mut due = Vec::new();
        while let Some(Reverse((_, target))) = self.turns.peek().copied().filter(|first| first.0.0 <= now) {
            self.turns.pop();
            due.push(target);
        }
        due.sort_unstable();
        due.dedup();
        due
    }

    fn holds(&self, target: u32, tick: u32) -> bool {
        match &self.covers {
            Some(covers) => covers[target as usize].holds(tick),
            None => holds(self.rows.get(target), tick),
        }
    }

    /// Waits for the next turn of a target; a row that has none is over.
    fn wait(&mut self, target: u32, now: u32) {
        let next = match &self.covers {
            Some(covers) => covers[target as usize].turn(now),
            None => turn(self.rows.get(target), now),
        };
        match next {
            Some(tick) => self.turns.push(Reverse((tick, target))),
            None if self.entry.is_none() && self.covers.is_none() => self.rows.put(target, &[]),
            None => (),
        }
    }

    /// Lets time pass.
    fn advance(&mut self, now: u32) {
        self.due(now).into_iter().for_each(|target| self.wait(target, now));
    }

    /// Lets time pass and adds the lines of the targets that hold at one of both ticks alone.
    fn pass(&mut self, before: u32, store: &Store, out: &mut Vec<u8>) {
        let now = store.history.clock;
        for target in self.due(now) {
            self.put_turn(out, store, target, self.holds(target, before), self.holds(target, now));
            self.wait(target, now);
        }
    }

    fn show(&self, store: &Store, out: &mut Vec<u8>) {
        let window = (self.entry.unwrap_or(store.history.clock), self.expiry);
        if window.0 > window.1 {
            return;
        }
        let mut spans = Vec::new();
        let mut put = |target: u32, spans: &mut Vec<Span>| {
            answer::put_row(out, store, &self.query, &self.targets.places(target), spans);
            spans.clear();
        };
        if let Some(covers) = &self.covers {
            for (target, cover) in (0..).zip(covers) {
                cover.spans(window, &mut spans);
                put(target, &mut spans);
            }
            return;
        }
        for (number, row) in self.rows.iter() {
            spans::clip(row, window, &mut spans);
            put(number, &mut spans);
        }
    }
}

fn looks_ahead(formula: &Formula) -> bool {
    use Formula::{Every, Next, Until};
    resolve::has(formula, &|part| matches!(part, Next(..) | Formula::Some(..) | Every(..) | Until(..)))
}

#[derive(Default)]
struct Session {
    store: Store,
    watches: Vec<Watch>,
    free: Buffers,
}

impl Session {
    /// Whether some query keeps the parts of its formula, which no removal ends.
    fn keeps_parts(&self) -> bool {
        self.watches.iter().any(|watch| watch.nodes.is_some())
    }

    fn watch(&mut self, name: Word, span: u32, query: &grammar::Query, kept: bool) -> Result<Watch, Refusal> {
        let (query, faults) = resolve::resolve(&self.store.history, query, span);
        resolve::first(faults)?;
        if kept && resolve::has(&query.formula, &|part| matches!(part, Formula::Assign(..))) {
            return Err(Refusal::BadSyntax);
        }
        let now = self.store.history.clock;
        let mut watch = Watch::new(name, query, kept.then_some(now), now + span, &self.store);
        if watch.nodes.is_some() {
            for Change { number, new, .. } in watch.judge([None; 4], &self.store, &mut self.free, |_| false) {
                watch.replace(number, now, (&[], &new), now);
            }
            return Ok(watch);
        }
        let query = watch.query.clone();
        joined(&self.store, &query, (now, now + span), &mut self.free, |key, spans| {
            watch.replace(watch.numbers.number(key.iter().copied()), now, (&[], spans), now);
        });
        Ok(watch)
    }

    fn step(&mut self, line: &[u8], tokens: &mut Vec<grammar::Token>, out: &mut Vec<u8>) -> Result<(), Refusal> {
        let command = grammar::read(line, tokens)?;
        match command {
            Command::Watch(name, span, ref query) | Command::Keep(name, span, ref query) => {
                let watch = self.watch(name, span, query, matches!(command, Command::Keep(..)))?;
                watch.show(&self.store, out);
                self.watches.push(watch);
            }
            Command::Ask(span, ref query) => {
                let (query, faults) = resolve::resolve(&self.store.history, query, span);
                resolve::first(faults)?;
                let now = self.store.history.clock;
                answer::put_answer(&self.store, &query, (now, now + span), &mut self.free, out);
            }
            Command::Show(name) => {
                let watch = self.watches.iter().find(|watch| watch.name == name).ok_or(Refusal::UnknownName)?;
                watch.show(&self.store, out);
            }
            command @ Command::Tick(_) => {
                let before = self.store.history.clock;
                self.store.apply(command)?;
                for watch in &mut self.watches {
                    watch.pass(before, &self.store, out);
                }
            }
            Command::Remove(_) if self.keeps_parts() => return Err(Refusal::BadSyntax),
            command @ (Command::Insert(..) | Command::Update(..) | Command::Remove(_)) => {
                let Some(written) = self.store.apply(command)? else { return Ok(()) };
                for watch in &mut self.watches {
                    watch.refresh(written, &self.store, &mut self.free, out);
                }
            }
            command @ (Command::Class(..) | Command::Region(..)) => {
                self.store.apply(command)?;
            }
            _ => return Err(Refusal::BadSyntax),
        }
        Ok(())
    }
}

fn main() -> io::Result<()> {
    let mut input = Vec::new();
    io::stdin().lock().read_to_end(&mut input)?;
    let mut output = io::stdout().lock();
    let words: Vec<String> = env::args().skip(1).collect();
    let mut session = match words.as_slice() {
        [word, name] if word == "--session" => {
            loading::load(&fs::read(name)?).map_err(|line| io::Error::other(format!("bad session {line}")))?
        }
        _ => Session::default(),
    };
    let (mut tokens, mut out) = (Vec::new(), Vec::new());
    for line in input.split_inclusive(|byte| *byte == b'\n') {
        let line = line.strip_suffix(b"\n").unwrap_or(line);
        match session.step(line, &mut tokens, &mut out) {
            Ok(()) => out.extend_from_slice(b"ok\n"),
            Err(refusal) => writeln!(out, "refused {} {refusal:?}", refusal as u8)?,
        }
        if out.len() >= PIECE {
            output.write_all(&out)?;
            out.clear();
        }
    }
    output.write_all(&out)
}
