// Session texts, rows of comma-separated values, and the generator's lines.
use super::history::{Cell, Class, History, Refusal};
use super::{Built, Next, Session, Stop};
use crate::grammar::{self, AttrKind, Command, Given, Legs, Place, Word};
use std::fs;
use std::io::Write;

/// The most bytes of a line in a session text.
const SESSION_LINE: usize = 16_384;
const ENTRIES: u64 = 2_000_000;
const LAST_TICK: u64 = 1_000_000_000;

/// None where there is no such file.
fn fetch(name: &[u8]) -> Result<Option<Vec<u8>>, Stop> {
    match fs::read(path(name)?) {
        Ok(text) => Ok(Some(text)),
        Err(error) if error.kind() == std::io::ErrorKind::NotFound => Ok(None),
        Err(_) => Err(Stop::ShelfFault),
    }
}

fn store(name: &[u8], text: &[u8]) -> Result<(), Stop> {
    fs::write(path(name)?, text).map_err(|_| Stop::ShelfFault)
}

fn path(name: &[u8]) -> Result<&str, Stop> {
    match std::str::from_utf8(name) {
        Ok(name) if !matches!(name, "" | "." | "..") && !name.contains('/') => Ok(name),
        _ => Err(Stop::ShelfFault),
    }
}

/// The lines of a text; a carriage return directly before a line feed is dropped.
pub fn lines(text: &[u8]) -> impl Iterator<Item = &[u8]> {
    text.split_inclusive(|byte| *byte == b'\n').map(|line| match line.strip_suffix(b"\n") {
        Some(line) => line.strip_suffix(b"\r").unwrap_or(line),
        None => line,
    })
}

fn is_silent(line: &[u8]) -> bool {
    line.iter().find(|byte| !matches!(byte, b' ' | b'\t')).is_none_or(|byte| *byte == b'#')
}

/// `entries N clock T`.
fn counts(line: &[u8]) -> Option<(u64, u64)> {
    let line = std::str::from_utf8(line).ok()?;
    let (entries, clock) = line.strip_prefix("entries ")?.split_once(" clock ")?;
    let whole = |text: &str, most: u64| {
        let plain = text.bytes().all(|byte| byte.is_ascii_digit()) && (text == "0" || !text.starts_with('0'));
        text.parse().ok().filter(|number| plain && *number <= most)
    };
    Some((whole(entries, ENTRIES)?, whole(clock, LAST_TICK)?))
}

/// The commands of a session text with the numbers of their lines, or the number of the first faulty line.
fn load(text: &[u8]) -> Result<Vec<(usize, Command)>, usize> {
    let all: Vec<&[u8]> = lines(text).collect();
    let (mut commands, mut tokens, mut ticks) = (Vec::new(), Vec::new(), 0);
    let (first, counts) = match all.first() {
        Some(&b"domino-session 1") => (1, None),
        Some(&b"domino-session 2") => (2, Some(counts(all.get(1).ok_or(2_usize)?).ok_or(2_usize)?)),
        _ => return Err(1),
    };
    let mut ended = false;
    for (i, line) in all.iter().enumerate().skip(first) {
        let is_place = counts.is_none_or(|counts| counts == (commands.len() as u64, ticks));
        if ended {
            return Err(i + 1);
        }
        if *line == b"end" && is_place {
            ended = true;
            continue;
        }
        if is_silent(line) {
            continue;
        }
        let command = grammar::read_to(line, &mut tokens, SESSION_LINE).map_err(|_| i + 1)?;
        let mut canonical = Vec::new();
        grammar::put_command(&mut canonical, &command);
        let is_full = counts.is_some_and(|counts| commands.len() as u64 == counts.0);
        if !is_journal_command(&command) || canonical.len() > SESSION_LINE || is_full {
            return Err(i + 1);
        }
        if let Command::Tick(count) = command {
            ticks += u64::from(count);
        }
        commands.push((i + 1, command));
    }
    if ended { Ok(commands) } else { Err(all.len() + 1) }
}

fn is_journal_command(command: &Command) -> bool {
    use Command::{Class, Drop, Insert, Keep, Region, Remove, Tick, Update, Watch};
    matches!(
        command,
        Class(..) | Region(..) | Insert(..) | Update(..) | Remove(_) | Tick(_) | Watch(..) | Keep(..) | Drop(_)
    )
}

/// The records of a text, as the `csv` crate reads them without a header.
fn records(text: &[u8]) -> Vec<Vec<Vec<u8>>> {
    #[derive(PartialEq)]
    enum At {
        Record,
        Field,
        Plain,
        Quoted,
        Quote,
    }
    let text = text.strip_prefix(b"\xef\xbb\xbf").unwrap_or(text);
    let (mut all, mut record, mut field) = (Vec::new(), Vec::new(), Vec::new());
    let mut at = At::Record;
    for byte in text {
        let is_end = matches!(byte, b'\n' | b'\r');
        at = match (&at, byte) {
            (At::Record, _) if is_end => At::Record,
            (At::Record | At::Field, b'"') => At::Quoted,
            (At::Quoted, b'"') => At::Quote,
            (At::Quoted, _) => {
                field.push(*byte);
                At::Quoted
            }
            (At::Quote, b'"') => {
                field.push(*byte);
                At::Quoted
            }
            (_, b',') => {
                record.push(std::mem::take(&mut field));
                At::Field
            }
            _ if is_end => {
                record.push(std::mem::take(&mut field));
                all.push(std::mem::take(&mut record));
                At::Record
            }
            _ => {
                field.push(*byte);
                At::Plain
            }
        };
    }
    if at != At::Record {
        record.push(field);
        all.push(record);
    }
    all
}

/// What stands in a column: an attribute's value or its rate.
struct Column {
    attribute: usize,
    is_rate: bool,
}

fn columns(header: &[Vec<u8>], class: &Class) -> Option<Vec<Column>> {
    let mut all: Vec<Column> = Vec::new();
    if header.first()? != b"name" {
        return None;
    }
    for title in &header[1..] {
        let (name, is_rate) = match title.strip_suffix(b".rate") {
            Some(name) => (name, true),
            None => (&title[..], false),
        };
        let attribute = class.attribute(&Word::of(name)?)?;
        let is_twice = all.iter().any(|other| other.attribute == attribute && other.is_rate == is_rate);
        if is_twice || is_rate && class.attrs[attribute].1 != AttrKind::Dyn {
            return None;
        }
        all.push(Column { attribute, is_rate });
    }
    Some(all)
}

fn text_of(field: &[u8]) -> Option<Word> {
    let is_taken = |byte: &u8| (0x20..=0x7e).contains(byte) && *byte != b'"';
    Word::of(field).filter(|_| field.iter().all(is_taken))
}

/// The settings of a row, one for each attribute, in the order of the first columns.
fn settings(row: &[Vec<u8>], columns: &[Column], class: &Class) -> Option<Vec<(Word, Given)>> {
    let mut sets: Vec<(Word, Given)> = Vec::new();
    for (field, column) in row.iter().zip(columns) {
        let (name, kind) = class.attrs[column.attribute];
        let given = match (kind, column.is_rate) {
            (AttrKind::Text, _) => Given::Text(text_of(field)?),
            (_, false) => Given::Num(grammar::signed(field, grammar::VALUE_LIMIT)?),
            (_, true) => {
                let last = grammar::signed(field, grammar::SLOPE_LIMIT)? as i32;
                Given::Rate(Legs { firsts: Box::default(), last })
            }
        };
        let Some(other) = sets.iter_mut().find(|set| set.0 == name) else {
            sets.push((name, given));
            continue;
        };
        other.1 = match (&other.1, given) {
            (Given::Num(value), Given::Rate(legs)) => Given::Both(*value, legs),
            (Given::Rate(legs), Given::Num(value)) => Given::Both(value, legs.clone()),
            _ => unreachable!("a value and a rate"),
        };
    }
    Some(sets)
}

/// The header with every column, and a row for each present object.
fn export_text(history: &History, class: &Class) -> Vec<u8> {
    let mut out = b"name".to_vec();
    for (name, kind) in &class.attrs {
        for rate in if *kind == AttrKind::Dyn { &["", ".rate"][..] } else { &[""] } {
            out.push(b',');
            out.extend_from_slice(name.text());
            out.extend_from_slice(rate.as_bytes());
        }
    }
    out.push(b'\n');
    for object in class.objects.iter().map(|id| &history.objects[*id as usize]) {
        let Some(cells) = object.cells() else { continue };
        out.extend_from_slice(object.name.text());
        for cell in cells {
            out.push(b',');
            match cell {
                Cell::Num(number) => grammar::put_number(&mut out, *number),
                Cell::Text(text) if text.text().contains(&b',') => {
                    out.push(b'"');
                    out.extend_from_slice(text.text());
                    out.push(b'"');
                }
                Cell::Text(text) => out.extend_from_slice(text.text()),
                Cell::Dyn(vector) => {
                    grammar::put_number(&mut out, vector.at(history.clock));
                    out.push(b',');
                    grammar::put_number(&mut out, i64::from(vector.slope_at(history.clock)));
                }
            }
        }
        out.push(b'\n');
    }
    out
}

impl Session {
    fn class_named(&self, name: &Word) -> Result<&Class, Refusal> {
        let number = self.history.class_names.get(name).ok_or(Refusal::UnknownName)?;
        Ok(&self.history.classes[*number])
    }

    pub fn save(&self, file: &Word) -> Result<(), Stop> {
        let journal = &self.history.journal;
        let mut text = b"domino-session 2\n".to_vec();
        super::put(&mut text, format_args!("entries {} clock {}\n", journal.entries.len(), self.history.clock));
        text.extend_from_slice(&journal.lines);
        text.extend_from_slice(b"end\n");
        store(file.text(), &text)
    }

    pub fn export(&self, class: &Word, file: &Word) -> Result<(), Stop> {
        store(file.text(), &export_text(&self.history, self.class_named(class)?))
    }

    /// The rows are tried on a copy, which takes the place of this session where none is refused.
    pub fn import(&mut self, class: &Word, file: &Word, out: &mut Vec<u8>) -> Result<(), Stop> {
        self.class_named(class)?;
        let text = fetch(file.text())?.ok_or(Refusal::NoFile)?;
        let mut copy = self.clone();
        let mut lines = Vec::new();
        copy.import_rows(class, &text, &mut lines).ok_or(Refusal::BadFile)?;
        *self = copy;
        out.append(&mut lines);
        Ok(())
    }

    fn import_rows(&mut self, class: &Word, text: &[u8], out: &mut Vec<u8>) -> Option<()> {
        let records = records(text);
        let (header, rows) = records.split_first()?;
        let columns = columns(header, self.class_named(class).ok()?)?;
        if rows.iter().any(|row| row.len() != header.len()) {
            return None;
        }
        for row in rows {
            let name = Word::of(&row[0]).filter(|_| grammar::is_name(&row[0]))?;
            let sets = settings(&row[1..], &columns, self.class_named(class).ok()?)?;
            let place = Place { at: None, moving: None };
            let known = self.history.object_names.get(&name);
            let command = match known.and_then(|id| self.history.objects[*id as usize].cells()) {
                Some(_) => Command::Update(name, place, sets),
                None => Command::Insert(*class, name, place, sets),
            };
            self.write(command, out).ok()?;
        }
        Some(())
    }

    /// The session of a text, or the number of the line that is no part of one; 0 where there is no such file.
    pub fn of_file(name: &[u8], built: Built) -> Result<Result<Session, usize>, Stop> {
        let Some(text) = fetch(name)? else { return Ok(Err(0)) };
        Ok(load(&text).and_then(|commands| Session::of_commands(commands, built)))
    }

    fn of_commands(commands: Vec<(usize, Command)>, built: Built) -> Result<Session, usize> {
        let mut session = Session { quiet: true, built, ..Session::default() };
        for (line, command) in commands {
            let Ok(Next::Accepted) = session.apply(command, &mut Vec::new()) else { return Err(line) };
        }
        session.quiet = false;
        Ok(session)
    }
}

struct Generator(u64);

impl Generator {
    fn draw(&mut self, n: u64) -> u64 {
        self.0 = (1_103_515_245 * self.0 + 12_345) % (1 << 31);
        self.0 / 65_536 % n
    }

    fn slope(&mut self) -> String {
        let mut text = Vec::new();
        grammar::put_number(&mut text, self.draw(2001) as i64 - 1000);
        String::from_utf8_lossy(&text).into_owned()
    }

    fn slopes(&mut self) -> String {
        let x = self.slope();
        format!("({x},{})", self.slope())
    }

    fn lines(&mut self) -> Vec<String> {
        let mut lines = vec!["class car 200 point".to_string()];
        for i in 0..20 {
            let a = self.draw(950);
            let b = self.draw(950);
            let (c, d) = (a + 50, b + 50);
            lines.push(format!("region r{i} ({a},{b}) ({c},{b}) ({c},{d}) ({a},{d})"));
        }
        for i in 0..200 {
            let x = self.draw(1000);
            let y = self.draw(1000);
            lines.push(format!("insert car c{i} at ({x},{y}) move {}", self.slopes()));
        }
        let query = |text: &str| text.to_string();
        lines.push(query("watch w0 3600 RETRIEVE o FROM car o WHERE INSIDE(o,r0)"));
        lines.push(query("watch w1 3600 RETRIEVE o FROM car o WHERE EVENTUALLY_WITHIN 60 INSIDE(o,r1)"));
        lines.push(query("watch w2 3600 RETRIEVE o,n FROM car o,car n WHERE DIST(o,n) <= 5 AND OUTSIDE(o,r2)"));
        for _ in 0..60 {
            lines.push(query("tick 60"));
            for _ in 0..10 {
                let object = self.draw(200);
                lines.push(format!("update c{object} move {}", self.slopes()));
            }
        }
        lines.extend((0..3).map(|i| format!("show w{i}")));
        lines
    }
}

/// Runs the generator's lines and writes their count, the refused ones, and the length and the sum of all replies.
pub fn generate(number: u64, out: &mut impl Write) -> std::io::Result<()> {
    let mut session = Session::default();
    let (mut refused, mut bytes, mut sum) = (0, 0, 0);
    let lines = Generator(number % (1 << 31)).lines();
    let mut reply = Vec::new();
    for line in &lines {
        reply.clear();
        session.answer(line.as_bytes(), &mut reply);
        refused += u32::from(reply.starts_with(b"refused"));
        bytes += reply.len();
        sum += reply.iter().map(|byte| u64::from(*byte)).sum::<u64>();
    }
    writeln!(out, "lines {}\nrefused {refused}\nbytes {bytes}\nsum {sum}", lines.len())
}
