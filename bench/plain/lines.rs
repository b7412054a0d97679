// The yardstick of `lines`: DOMINO's work on short lines, inserts and updates in plain Rust without proofs. It reads
// pieces of 4,096 bytes, answers the lines of a piece at once, and keeps a journal of canonical lines with their ticks,
// and objects with all their epochs. A line goes by the first word of any command of the language; of these it has
// `class`, `insert`, `update`, `remove` and `tick`, with all their refusals, and ends at another one. With a word, it
// writes each reply by itself.
#[path = "lines/journal.rs"]
mod journal;
#[path = "lines/read.rs"]
mod read;
#[path = "lines/store.rs"]
mod store;
#[path = "lines/tokens.rs"]
mod tokens;

use journal::Journal;
use read::{Command, Reader};
use std::io::{self, Read, Write};
use store::Store;

const PIECE: usize = 4_096;
const LINE_LIMIT: usize = 4_096;
const LAST_TICK: u32 = 1_000_000_000;

/// In the order in which the first one of a line is answered. Those of other commands are left out.
#[derive(Clone, Copy, Debug, PartialEq)]
pub enum Refusal {
    LineTooLong = 1,
    NotAscii = 2,
    BadToken = 3,
    BadSyntax = 4,
    NumberRange = 5,
    TooLarge = 6,
    UnknownName = 7,
    NameTaken = 8,
    WrongKind = 9,
    ClockEnd = 13,
    Presence = 14,
    ClassFull = 15,
    StoreFull = 16,
    JournalFull = 18,
}

#[derive(Default)]
struct Database {
    clock: u32,
    journal: Journal,
    store: Store,
}

impl Database {
    /// Carries out a command: it is judged, entered, and then made.
    fn apply(&mut self, command: &Command) -> Result<(), Refusal> {
        let Database { clock, journal, store } = self;
        match command {
            Command::Nothing => {}
            Command::Class { name, capacity, point, attrs } => {
                let class = store.new_class(name, *capacity, *point, attrs)?;
                journal.enter(*clock, command)?;
                store.add_class(name, class);
            }
            Command::Insert { class, name, place, sets } => {
                let (class, id) = store.judge_insert(class, name, place, sets)?;
                journal.enter(*clock, command)?;
                store.insert(class, id, name, *clock, place, sets);
            }
            Command::Update { name, place, sets } => {
                let id = store.judge_update(name, place, sets)?;
                journal.enter(*clock, command)?;
                store.update(id, *clock, place, sets);
            }
            Command::Remove { name } => {
                let id = store.judge_remove(name)?;
                journal.enter(*clock, command)?;
                store.remove(id, *clock);
            }
            Command::Tick { ticks } => {
                if *ticks > LAST_TICK - *clock {
                    return Err(Refusal::ClockEnd);
                }
                journal.enter(*clock, command)?;
                *clock += ticks;
            }
        }
        Ok(())
    }

    fn answer(&mut self, reader: &mut Reader, line: &[u8], out: &mut Vec<u8>) {
        let line = line.strip_suffix(b"\r").unwrap_or(line);
        match reader.read(line) {
            Ok(Command::Nothing) => {}
            Ok(command) => match self.apply(&command) {
                Ok(()) => out.extend_from_slice(b"ok\n"),
                Err(refusal) => put_refusal(out, refusal),
            },
            Err(refusal) => put_refusal(out, refusal),
        }
    }
}

fn put_refusal(out: &mut Vec<u8>, refusal: Refusal) {
    writeln!(out, "refused {} {refusal:?}", refusal as u8).expect("a Vec takes all bytes");
}

fn main() -> io::Result<()> {
    let (mut source, mut sink) = (io::stdin().lock(), io::stdout().lock());
    let apart = std::env::args().len() > 1;
    let (mut database, mut reader) = (Database::default(), Reader::default());
    let (mut piece, mut begun, mut out) = ([0; PIECE], Vec::new(), Vec::new());
    loop {
        let len = source.read(&mut piece)?;
        if len == 0 {
            break;
        }
        let mut rest = &piece[..len];
        while let Some(end) = rest.iter().position(|byte| *byte == b'\n') {
            if begun.is_empty() {
                database.answer(&mut reader, &rest[..end], &mut out);
            } else {
                begun.extend_from_slice(&rest[..end]);
                database.answer(&mut reader, &begun, &mut out);
                begun.clear();
            }
            rest = &rest[end + 1..];
            if apart {
                sink.write_all(&out)?;
                out.clear();
            }
        }
        begun.extend_from_slice(rest);
        sink.write_all(&out)?;
        out.clear();
    }
    if !begun.is_empty() {
        database.answer(&mut reader, &begun, &mut out);
        sink.write_all(&out)?;
    }
    std::hint::black_box(&database);
    Ok(())
}
