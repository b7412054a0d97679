// DOMINO in plain Rust without proofs, written from the rules of docs/LANGUAGE.md: the yardstick of `session`, and
// the model that `compare_session` and `compare_queries` compare with. Queries are judged as their meaning is told,
// one tick and one binding after the other, in numbers of 128 bits, and nothing is maintained between commands.
// It reads lines of standard input and answers on standard output. Other words make inputs, see `start`.
#[path = "session/answering.rs"]
mod answering;
#[path = "session/circle.rs"]
mod circle;
#[path = "session/files.rs"]
mod files;
#[allow(dead_code)]
#[path = "grammar.rs"]
mod grammar;
#[path = "session/history.rs"]
mod history;
#[path = "session_lines.rs"]
mod lines;
#[path = "session/live.rs"]
mod live;
#[path = "session/meaning.rs"]
mod meaning;
#[path = "session/question.rs"]
mod question;
#[path = "session/reach.rs"]
mod reach;
#[path = "session/resolve.rs"]
mod resolve;

use answering::{Built, Next, Run, Session, Stop, put};
use std::io::{self, BufRead, BufReader, Write};
use std::process::ExitCode;

#[derive(Clone, Copy, PartialEq)]
enum Writing {
    /// Each reply before the next line is answered.
    Each,
    /// The replies to all lines that one read ended, before the next read.
    Gathered,
    /// As `Each`, and before each line of a reply stands the number of its line of input.
    Numbered,
}

fn run(mut session: Session, writing: Writing) -> io::Result<u8> {
    let mut input = BufReader::new(io::stdin().lock());
    let mut output = io::stdout().lock();
    let (mut line, mut out) = (Vec::new(), Vec::new());
    let mut count = 0;
    let mut run = Run::On;
    while run == Run::On {
        line.clear();
        if input.read_until(b'\n', &mut line)? == 0 {
            break;
        }
        count += 1;
        if line.pop_if(|last| *last == b'\n').is_some() {
            line.pop_if(|last| *last == b'\r');
        }
        run = session.answer(&line, &mut out);
        match writing {
            Writing::Numbered => {
                for line in out.split_inclusive(|byte| *byte == b'\n') {
                    write!(output, "{count} ")?;
                    output.write_all(line)?;
                }
            }
            Writing::Gathered if run == Run::On && input.buffer().contains(&b'\n') => continue,
            _ => output.write_all(&out)?,
        }
        out.clear();
    }
    output.write_all(&out)?;
    Ok(if run == Run::ShelfFault { 5 } else { 0 })
}

/// A session over standard input that goes on from the named text.
fn run_named(name: &str, built: Built) -> io::Result<u8> {
    match Session::of_file(name.as_bytes(), built) {
        Ok(Ok(session)) => run(session, Writing::Each),
        Ok(Err(line)) => {
            println!("bad session {line}");
            Ok(2)
        }
        Err(_) => Ok(5),
    }
}

/// No words: a session over standard input. `--session NAME` and `--gen NUMBER` are as in DOMINO; `--built WORD`
/// before them leaves out commands, and `--world SEED` answers each `must` and `may` as an `ask` in a world in which
/// positions are off by at most its error.
/// `--gather` and `--number` say how the replies are written.
/// `--generate SEED LINES` prints the lines of `session`, all of them accepted, and `--mixed SEED LINES` those of
/// `compare_session`.
fn start(words: &[String]) -> io::Result<u8> {
    let mut words: Vec<&str> = words.iter().map(String::as_str).collect();
    let number = |word: &str| word.parse::<u64>().map_err(io::Error::other);
    let mut built = Built::All;
    if let ["--built", word, ..] = words[..] {
        built = Built::named(word).ok_or_else(|| io::Error::other("data, ask, live, files, nearest, blurred, ranges or all"))?;
        words.drain(..2);
    }
    let mut world = None;
    if let ["--world", seed, ..] = words[..] {
        world = Some(number(seed)?);
        words.drain(..2);
    }
    let session = Session { built, world, ..Session::default() };
    match words.as_slice() {
        [] => run(session, Writing::Each),
        ["--gather"] => run(session, Writing::Gathered),
        ["--number"] => run(session, Writing::Numbered),
        ["--session", name] => run_named(name, built),
        ["--gen", digits] if (1..=9).contains(&digits.len()) && digits.bytes().all(|b| b.is_ascii_digit()) => {
            files::generate(number(digits)?, &mut io::stdout().lock()).map(|()| 0)
        }
        ["--generate", seed, count] => lines::generate(number(seed)?, number(count)?).map(|()| 0),
        ["--mixed", seed, count] => lines::mixed(number(seed)?, number(count)?).map(|()| 0),
        _ => {
            println!("bad words");
            Ok(1)
        }
    }
}

fn main() -> io::Result<ExitCode> {
    let words: Vec<String> = std::env::args().skip(1).collect();
    // a line of opening brackets is as deep as it is long
    let deep = std::thread::Builder::new().stack_size(1 << 28).spawn(move || start(&words))?;
    Ok(ExitCode::from(deep.join().expect("the session ends")?))
}
