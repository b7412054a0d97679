// Canonical lines, with their ticks.
use crate::Refusal;
use crate::read::{Command, Given, Legs, Place, Set};
use std::io::Write;

const ENTRIES: usize = 2_000_000;
const BYTES: usize = 268_435_456;

/// Canonical lines, one after the other, each with its line feed.
#[derive(Default)]
pub struct Journal {
    lines: Vec<u8>,
    /// The tick of each entry, and the place after its line.
    entries: Vec<(u32, u32)>,
}

impl Journal {
    pub fn enter(&mut self, tick: u32, command: &Command) -> Result<(), Refusal> {
        if self.entries.len() == ENTRIES {
            return Err(Refusal::JournalFull);
        }
        let before = self.lines.len();
        put_command(&mut self.lines, command);
        self.lines.push(b'\n');
        if self.lines.len() > BYTES {
            self.lines.truncate(before);
            return Err(Refusal::JournalFull);
        }
        self.entries.push((tick, self.lines.len() as u32));
        Ok(())
    }
}

fn put_count(out: &mut Vec<u8>, count: u64) {
    if count < 10 {
        return out.push(b'0' + count as u8);
    }
    let mut digits = [0; 20];
    let (mut from, mut left) = (digits.len(), count);
    while left > 0 {
        from -= 1;
        digits[from] = b'0' + (left % 10) as u8;
        left /= 10;
    }
    out.extend_from_slice(&digits[from..]);
}

fn put_number(out: &mut Vec<u8>, thousandths: i64) {
    if thousandths < 0 {
        out.push(b'-');
    }
    let size = thousandths.unsigned_abs();
    put_count(out, size / 1000);
    let part = (size % 1000) as u16;
    if part > 0 {
        let digits = [b'0' + (part / 100) as u8, b'0' + (part / 10 % 10) as u8, b'0' + (part % 10) as u8];
        let len = 3 - digits.iter().rev().take_while(|digit| **digit == b'0').count();
        out.push(b'.');
        out.extend_from_slice(&digits[..len]);
    }
}

fn put_pair(out: &mut Vec<u8>, x: i64, y: i64) {
    out.push(b'(');
    put_number(out, x);
    out.push(b',');
    put_number(out, y);
    out.push(b')');
}

fn put_legs(out: &mut Vec<u8>, legs: &Legs) {
    for (slope, ticks) in &legs.firsts {
        out.push(b'[');
        put_number(out, *slope);
        out.push(b',');
        put_count(out, u64::from(*ticks));
        out.extend_from_slice(b"] ");
    }
    put_number(out, legs.last);
}

fn put_place(out: &mut Vec<u8>, place: &Place) {
    if let Some((x, y)) = place.at {
        out.extend_from_slice(b" at ");
        put_pair(out, x, y);
    }
    if let Some((x, y)) = &place.moving {
        out.extend_from_slice(b" move ");
        for (x, y) in x.firsts.iter().zip(&y.firsts) {
            out.push(b'[');
            put_pair(out, x.0, y.0);
            out.push(b',');
            put_count(out, u64::from(x.1));
            out.extend_from_slice(b"] ");
        }
        put_pair(out, x.last, y.last);
    }
}

fn put_sets(out: &mut Vec<u8>, sets: &[Set]) {
    for Set { name, given } in sets {
        out.push(b' ');
        out.extend_from_slice(name);
        if !matches!(given, Given::Rate(_)) {
            out.extend_from_slice(b" = ");
        }
        match given {
            Given::Num(value) => put_number(out, *value),
            Given::Text(text) => {
                out.push(b'"');
                out.extend_from_slice(text);
                out.push(b'"');
            }
            Given::Both(value, _) => put_number(out, *value),
            Given::Rate(_) => {}
        }
        if let Given::Both(_, legs) | Given::Rate(legs) = given {
            out.extend_from_slice(b" rate ");
            put_legs(out, legs);
        }
    }
}

fn put_command(out: &mut Vec<u8>, command: &Command) {
    match command {
        Command::Nothing => {}
        Command::Class { name, capacity, point, attrs } => {
            out.extend_from_slice(b"class ");
            out.extend_from_slice(name);
            out.push(b' ');
            put_count(out, u64::from(*capacity));
            if *point {
                out.extend_from_slice(b" point");
            }
            for (i, (name, kind)) in attrs.iter().enumerate() {
                out.extend_from_slice(if i == 0 { b" (" } else { b"," });
                write!(out, "{} {}", name.escape_ascii(), kind.word()).expect("a Vec takes all bytes");
            }
            if !attrs.is_empty() {
                out.push(b')');
            }
        }
        Command::Insert { class, name, place, sets } => {
            out.extend_from_slice(b"insert ");
            out.extend_from_slice(class);
            out.push(b' ');
            out.extend_from_slice(name);
            put_place(out, place);
            put_sets(out, sets);
        }
        Command::Update { name, place, sets } => {
            out.extend_from_slice(b"update ");
            out.extend_from_slice(name);
            put_place(out, place);
            put_sets(out, sets);
        }
        Command::Remove { name } => {
            out.extend_from_slice(b"remove ");
            out.extend_from_slice(name);
        }
        Command::Tick { ticks } => {
            out.extend_from_slice(b"tick ");
            put_count(out, u64::from(*ticks));
        }
    }
}
