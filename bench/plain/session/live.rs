// Registered queries, and the lines of answers and of changes. Nothing is maintained: each answer is worked out
// again from the history.
use super::history::{History, Refusal};
use super::meaning::{self, Answer, Blur};
use super::resolve::{self, Query};
use super::{Session, put};
use crate::grammar::{self, Command, Word};

const QUERIES: usize = 256;
const ALL_BINDINGS: u64 = 4_000_000;
const BLURRED_SPAN: u32 = 10_000;
const BLURRED_BINDINGS: u64 = 10_000;

#[derive(Clone)]
pub struct Registered {
    pub name: Word,
    pub keeps: bool,
    query: Query,
    pub entry: u32,
    pub expiry: u32,
}

impl Registered {
    fn answer(&self, history: &History) -> Answer {
        let from = if self.keeps { self.entry } else { history.clock };
        meaning::answer(history, &self.query, None, from, self.expiry)
    }
}

fn put_tuple(out: &mut Vec<u8>, history: &History, query: &Query, key: &[usize]) {
    for (variable, place) in query.targets.iter().zip(key) {
        let class = &history.classes[query.classes[*variable]];
        out.push(b' ');
        out.extend_from_slice(history.objects[class.objects[*place] as usize].name.text());
    }
}

pub fn put_spans(out: &mut Vec<u8>, runs: &[(u32, u32)]) {
    for (lo, hi) in runs {
        put(out, format_args!(" {lo}..{hi}"));
    }
}

/// The first word of a row of these runs, which aren't empty.
pub fn mark(runs: &[(u32, u32)], now: u32) -> &'static str {
    if runs.iter().any(|(lo, hi)| (*lo..=*hi).contains(&now)) {
        return "now";
    }
    if runs.last().is_some_and(|last| last.1 > now) { "later" } else { "past" }
}

pub fn put_answer(out: &mut Vec<u8>, history: &History, query: &Query, answer: &Answer) {
    for (key, ticks) in &answer.rows {
        let runs = meaning::runs(answer.from, ticks.iter().copied());
        out.extend_from_slice(mark(&runs, history.clock).as_bytes());
        put_tuple(out, history, query, key);
        out.extend_from_slice(b" :");
        put_spans(out, &runs);
        out.push(b'\n');
    }
}

impl Session {
    pub fn ask(&self, span: u32, query: &grammar::Query, out: &mut Vec<u8>) -> Result<(), Refusal> {
        let (query, faults) = resolve::resolve(&self.history, query, span);
        resolve::first(faults)?;
        let now = self.history.clock;
        let answer = meaning::answer(&self.history, &query, None, now, now + span);
        put_answer(out, &self.history, &query, &answer);
        Ok(())
    }

    /// A `must` or a `may`, or what holds in the session's world.
    pub fn blurred(&self, blur: Blur, span: u32, query: &grammar::Query, out: &mut Vec<u8>) -> Result<(), Refusal> {
        let (query, mut faults) = resolve::resolve(&self.history, query, span);
        let has = |is: &dyn Fn(&resolve::Formula) -> bool| resolve::has(&query.formula, is);
        if has(&|f| matches!(f, resolve::Formula::Not(_) | resolve::Formula::Sphere(..))) {
            faults.push(Refusal::WrongKind);
        }
        if span > BLURRED_SPAN {
            faults.push(Refusal::SpanRange);
        }
        if query.bindings(&self.history) > BLURRED_BINDINGS {
            faults.push(Refusal::BindingLimit);
        }
        resolve::first(faults)?;
        let now = self.history.clock;
        let answer = meaning::answer(&self.history, &query, Some(blur), now, now + span);
        put_answer(out, &self.history, &query, &answer);
        Ok(())
    }

    /// A `watch` or a `keep`.
    pub fn register(&mut self, command: Command, out: &mut Vec<u8>) -> Result<(), Refusal> {
        let (keeps, name, span, query) = match &command {
            Command::Watch(name, span, query) => (false, *name, *span, query),
            Command::Keep(name, span, query) => (true, *name, *span, query),
            _ => return Ok(()),
        };
        let (query, mut faults) = resolve::resolve(&self.history, query, span);
        if self.registered.iter().any(|other| other.name == name) {
            faults.push(Refusal::NameTaken);
        }
        if self.registered.len() == QUERIES {
            faults.push(Refusal::StoreFull);
        }
        let others: u64 = self.registered.iter().map(|other| other.query.bindings(&self.history)).sum();
        if others + query.bindings(&self.history) > ALL_BINDINGS {
            faults.push(Refusal::BindingLimit);
        }
        resolve::first(faults)?;
        let entry = self.history.clock;
        self.history.journal.enter(entry, &command)?;
        let registered = Registered { name, keeps, query, entry, expiry: entry + span };
        if !self.quiet {
            put_answer(out, &self.history, &registered.query, &registered.answer(&self.history));
        }
        self.registered.push(registered);
        Ok(())
    }

    fn place_of(&self, name: &Word) -> Result<usize, Refusal> {
        self.registered.iter().position(|query| query.name == *name).ok_or(Refusal::UnknownName)
    }

    pub fn show(&self, name: &Word, out: &mut Vec<u8>) -> Result<(), Refusal> {
        let registered = &self.registered[self.place_of(name)?];
        put_answer(out, &self.history, &registered.query, &registered.answer(&self.history));
        Ok(())
    }

    pub fn drop_query(&mut self, command: Command) -> Result<(), Refusal> {
        let Command::Drop(name) = &command else { return Ok(()) };
        let place = self.place_of(name)?;
        self.history.journal.enter(self.history.clock, &command)?;
        self.registered.remove(place);
        Ok(())
    }

    fn answers(&self) -> Vec<Answer> {
        match self.quiet {
            true => Vec::new(),
            false => self.registered.iter().map(|query| query.answer(&self.history)).collect(),
        }
    }

    /// An `insert`, an `update` or a `remove`, and the changes of all registered queries.
    pub fn write(&mut self, command: Command, out: &mut Vec<u8>) -> Result<(), Refusal> {
        let before = self.answers();
        self.history.write(command)?;
        let now = self.history.clock;
        for ((query, before), after) in self.registered.iter().zip(&before).zip(self.answers()) {
            let mut keys: Vec<&Vec<usize>> = before.rows.keys().chain(after.rows.keys()).collect();
            keys.sort();
            keys.dedup();
            for key in keys {
                self.put_change(out, query, key, (before, &after));
                self.put_turn(out, query, key, before.holds(key, now), after.holds(key, now));
            }
        }
        Ok(())
    }

    fn put_change(&self, out: &mut Vec<u8>, query: &Registered, key: &[usize], (before, after): (&Answer, &Answer)) {
        for (word, there, not_there) in [("gain ", after, before), ("lose ", before, after)] {
            let ticks = there.from..=query.expiry;
            let only = ticks.map(|tick| there.holds(key, tick) && !not_there.holds(key, tick));
            let runs = meaning::runs(there.from, only);
            if runs.is_empty() {
                continue;
            }
            out.extend_from_slice(word.as_bytes());
            out.extend_from_slice(query.name.text());
            put_tuple(out, &self.history, &query.query, key);
            out.extend_from_slice(b" :");
            put_spans(out, &runs);
            out.push(b'\n');
        }
    }

    /// The line of a target that holds now and didn't before, or the reverse.
    fn put_turn(&self, out: &mut Vec<u8>, query: &Registered, key: &[usize], before: bool, after: bool) {
        let word = match (before, after) {
            (false, true) => "enter ",
            (true, false) => "leave ",
            _ => return,
        };
        out.extend_from_slice(word.as_bytes());
        out.extend_from_slice(query.name.text());
        put_tuple(out, &self.history, &query.query, key);
        out.push(b'\n');
    }

    pub fn tick(&mut self, command: Command, out: &mut Vec<u8>) -> Result<(), Refusal> {
        let old = self.history.clock;
        // a tick changes no ticks, so the answers at the old tick tell of the new one too
        let answers = self.answers();
        self.history.tick(command)?;
        let now = self.history.clock;
        for (query, answer) in self.registered.iter().zip(&answers) {
            for key in answer.rows.keys() {
                self.put_turn(out, query, key, answer.holds(key, old), answer.holds(key, now));
            }
        }
        Ok(())
    }
}
