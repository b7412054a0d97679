// A replica of one query's answer in plain Rust without proofs, written from 'A replica' in docs/LANGUAGE.md and from
// 'Replicas' in docs/DECISIONS.md: the yardstick of `bench/users`, and what `compare_users` and `fuzz_users` compare with.
// Rows are found by a hash of their targets and put in order at the end, and ticks are added to a row and taken from it in
// place. Its word is the name of the query.
use std::collections::HashMap;
use std::io::{self, BufRead, BufReader, Write};
use std::os::unix::ffi::OsStrExt;
use std::process::ExitCode;

const LAST_TICK: u32 = 1_000_000_000;
const NAME_BYTES: usize = 32;
const TARGETS: usize = 4;
const PIECE: usize = 1 << 16;

/// The first and the last tick.
type Span = (u32, u32);

/// A line of the query or the clock hasn't its form.
struct Bad;

struct Copy {
    keeps: bool,
    clock: u32,
    rows: HashMap<Box<[u8]>, Vec<Span>>,
}

struct Replica<'a> {
    name: &'a [u8],
    copy: Option<Copy>,
    /// Whether rows of the answer may follow.
    starting: bool,
    /// What a line tells, and a row that is being made.
    told: Vec<Span>,
    made: Vec<Span>,
}

/// What stands before the first space, and what after it, where there is one.
fn cut(text: &[u8]) -> (&[u8], Option<&[u8]>) {
    match text.iter().position(|byte| *byte == b' ') {
        Some(place) => (&text[..place], Some(&text[place + 1..])),
        None => (text, None),
    }
}

/// A number at the front, and what stands behind it.
fn number(text: &[u8]) -> Option<(u32, &[u8])> {
    let size = text.iter().take_while(|byte| byte.is_ascii_digit()).count();
    let (digits, rest) = text.split_at(size);
    if !(1..=10).contains(&size) || size > 1 && digits[0] == b'0' {
        return None;
    }
    let number = digits.iter().fold(0, |number, digit| number * 10 + u64::from(digit - b'0'));
    (number <= LAST_TICK.into()).then_some((number as u32, rest))
}

fn tick(text: &[u8]) -> Option<u32> {
    number(text).filter(|found| found.1.is_empty()).map(|found| found.0)
}

#[rustfmt::skip]
fn is_reserved(word: &[u8]) -> bool {
    matches!(
        word,
        b"RETRIEVE" | b"FROM" | b"WHERE" | b"TRUE" | b"FALSE" | b"NOT" | b"AND" | b"OR" | b"UNTIL" | b"UNTIL_WITHIN"
        | b"UNTIL_AFTER" | b"NEXTTIME" | b"EVENTUALLY" | b"EVENTUALLY_WITHIN" | b"EVENTUALLY_AFTER" | b"ALWAYS"
        | b"ALWAYS_FOR" | b"INSIDE" | b"OUTSIDE" | b"DIST" | b"WITHIN_SPHERE" | b"TIME" | b"value" | b"updatetime"
        | b"function" | b"class" | b"region" | b"insert" | b"update" | b"remove" | b"tick" | b"ask" | b"watch" | b"keep"
        | b"show" | b"drop" | b"list" | b"save" | b"import" | b"export" | b"quit" | b"point" | b"num" | b"text" | b"dyn"
        | b"at" | b"move" | b"rate"
    )
}

fn is_name(word: &[u8]) -> bool {
    let begins = word.first().is_some_and(|byte| !byte.is_ascii_digit());
    begins
        && word.len() <= NAME_BYTES
        && word.iter().all(|byte| byte.is_ascii_alphanumeric() || *byte == b'_')
        && !is_reserved(word)
}

/// The targets of a row, and the text of its ticks.
fn targets(text: &[u8]) -> Option<(&[u8], &[u8])> {
    let (mut end, mut rest) = (0, text);
    for count in 0..=TARGETS {
        let (word, behind) = cut(rest);
        if word == b":" {
            return (count > 0).then_some((&text[..end], behind?));
        }
        if !is_name(word) {
            return None;
        }
        rest = behind?;
        end = text.len() - rest.len() - 1;
    }
    None
}

/// Puts the spans of a text into `told`; they ascend, with at least one tick between two.
fn read_spans(text: &[u8], told: &mut Vec<Span>) -> Option<()> {
    told.clear();
    let (mut rest, mut least) = (text, 0);
    loop {
        let (lo, behind) = number(rest)?;
        let (hi, behind) = number(behind.strip_prefix(b"..")?)?;
        if lo < least || hi < lo {
            return None;
        }
        told.push((lo, hi));
        least = hi + 2;
        match behind.split_first() {
            None => return Some(()),
            Some((b' ', behind)) => rest = behind,
            Some(_) => return None,
        }
    }
}

/// The first and the last one of the spans from `from` on that come to this span, the last one excluded; with `near` those
/// too that are its neighbours.
fn reached(row: &[Span], from: usize, (lo, hi): Span, near: u32) -> (usize, usize) {
    let first = from + row[from..].partition_point(|span| span.1 + near < lo);
    let last = first + row[first..].partition_point(|span| span.0 <= hi + near);
    (first, last)
}

fn add(row: &mut Vec<Span>, told: &[Span]) {
    let mut from = 0;
    for span in told {
        let (first, last) = reached(row, from, *span, 1);
        if first == last {
            row.insert(first, *span);
        } else {
            row[first] = (row[first].0.min(span.0), row[last - 1].1.max(span.1));
            row.drain(first + 1..last);
        }
        from = first;
    }
}

fn take(row: &mut Vec<Span>, told: &[Span], left: &mut Vec<Span>) {
    let mut from = 0;
    for span in told {
        let (first, last) = reached(row, from, *span, 0);
        from = first;
        if first == last {
            continue;
        }
        left.clear();
        left.extend((row[first].0 < span.0).then(|| (row[first].0, span.0 - 1)));
        left.extend((span.1 < row[last - 1].1).then(|| (span.1 + 1, row[last - 1].1)));
        row.splice(first..last, left.iter().copied());
    }
}

impl<'a> Replica<'a> {
    fn new(name: &'a [u8]) -> Replica<'a> {
        Replica { name, copy: None, starting: false, told: Vec::new(), made: Vec::new() }
    }

    /// Adds the ticks of a row to what is there, or takes them from it.
    fn change(&mut self, text: &[u8], adds: bool) -> Result<(), Bad> {
        let (target, ticks) = targets(text).ok_or(Bad)?;
        read_spans(ticks, &mut self.told).ok_or(Bad)?;
        let Some(copy) = &mut self.copy else { return Ok(()) };
        match copy.rows.get_mut(target) {
            Some(row) if adds => add(row, &self.told),
            Some(row) => take(row, &self.told, &mut self.made),
            None if adds => drop(copy.rows.insert(target.into(), self.told.clone())),
            None => (),
        }
        Ok(())
    }

    fn start(&mut self, text: &[u8]) -> Result<(), Bad> {
        let (kind, clock) = cut(text);
        let keeps = kind == b"keep";
        let clock = clock.filter(|_| keeps || kind == b"watch").and_then(tick).ok_or(Bad)?;
        self.copy = Some(Copy { keeps, clock, rows: HashMap::new() });
        self.starting = true;
        Ok(())
    }

    /// A line of the query.
    fn hear_own(&mut self, verb: &[u8], rest: Option<&[u8]>) -> Result<(), Bad> {
        self.starting = false;
        match (verb, rest) {
            (b"start", Some(rest)) => self.start(rest),
            (b"gain", Some(rest)) => self.change(rest, true),
            (b"lose", Some(rest)) => self.change(rest, false),
            (b"stop", None) => {
                self.copy = None;
                Ok(())
            }
            _ => Err(Bad),
        }
    }

    fn hear(&mut self, line: &[u8]) -> Result<(), Bad> {
        let (verb, rest) = cut(line);
        match verb {
            b"now" | b"later" | b"past" => {
                self.starting = self.starting && rest.is_some_and(|row| self.change(row, true).is_ok());
            }
            b"clock" => {
                self.starting = false;
                let clock = rest.and_then(tick).ok_or(Bad)?;
                self.copy.iter_mut().for_each(|copy| copy.clock = clock);
            }
            b"start" | b"gain" | b"lose" | b"stop" => match rest.map(cut) {
                Some((name, rest)) if name == self.name => return self.hear_own(verb, rest),
                _ => self.starting = false,
            },
            _ => self.starting = false,
        }
        Ok(())
    }

    /// The rows, in the order of their targets.
    fn write(&self, output: &mut impl Write) -> io::Result<()> {
        let Some(copy) = &self.copy else { return Ok(()) };
        let first = if copy.keeps { 0 } else { copy.clock };
        let mut rows: Vec<(&[u8], &[Span])> = copy.rows.iter().map(|(target, row)| (&target[..], &row[..])).collect();
        rows.sort_unstable();
        for (target, row) in rows {
            let row = &row[row.partition_point(|span| span.1 < first)..];
            if row.is_empty() {
                continue;
            }
            output.write_all(target)?;
            output.write_all(b" :")?;
            for (lo, hi) in row {
                write!(output, " {}..{hi}", first.max(*lo))?;
            }
            output.write_all(b"\n")?;
        }
        Ok(())
    }
}

/// Whether the feed was good.
fn follow(name: &[u8]) -> io::Result<bool> {
    let mut input = BufReader::with_capacity(PIECE, io::stdin().lock());
    let mut output = io::BufWriter::with_capacity(PIECE, io::stdout().lock());
    let mut replica = Replica::new(name);
    let (mut line, mut count) = (Vec::new(), 0);
    while input.read_until(b'\n', &mut line)? > 0 {
        count += 1;
        if line.pop_if(|last| *last == b'\n').is_some() {
            line.pop_if(|last| *last == b'\r');
        }
        if replica.hear(&line).is_err() {
            writeln!(output, "bad feed {count}")?;
            output.flush()?;
            return Ok(false);
        }
        line.clear();
    }
    replica.write(&mut output)?;
    output.flush()?;
    Ok(true)
}

fn main() -> io::Result<ExitCode> {
    let words: Vec<_> = std::env::args_os().skip(1).collect();
    match words.as_slice() {
        [name] => Ok(ExitCode::from(if follow(name.as_bytes())? { 0 } else { 2 })),
        _ => Err(io::Error::other("the name of a query")),
    }
}
