// Several users of one world in plain Rust without proofs, written from 'Several users' in docs/LANGUAGE.md over the pieces
// of the plain session: the model that `compare_users` and `fuzz_users` compare with. Each user has a session of their own,
// which is given the accepted data lines of all others too, so it is as slow as eight of them.
// It reads lines of standard input and answers on standard output. Other words say what is written, see `start`.
#[allow(dead_code)]
#[path = "session/answering.rs"]
mod answering;
#[path = "session/circle.rs"]
mod circle;
#[allow(dead_code)]
#[path = "session/files.rs"]
mod files;
#[allow(dead_code)]
#[path = "grammar.rs"]
mod grammar;
#[path = "session/history.rs"]
mod history;
#[path = "session/live.rs"]
mod live;
#[path = "session/meaning.rs"]
mod meaning;
#[path = "session/question.rs"]
mod question;
#[path = "session/reach.rs"]
mod reach;
#[path = "session/resolve.rs"]
mod resolve;
#[path = "users/sender.rs"]
mod sender;

use answering::{Built, Next, Session, Stop, put};
use grammar::Command;
use history::Refusal;
use sender::{Kind, first_word, kind_of, sent};
use std::io::{self, BufRead, BufReader, Write};
use std::process::ExitCode;

const USERS: usize = 8;
/// Accepted ones, of all users together.
const DATA_LINES: usize = 8_000;
/// Accepted ones, of each user.
const QUERY_LINES: usize = 8_000;

struct User {
    name: Vec<u8>,
    session: Session,
    query_lines: usize,
}

#[derive(Default)]
struct World {
    /// In the order of their first lines.
    users: Vec<User>,
    /// The session of whoever comes next.
    newcomer: Session,
    data_lines: usize,
}

/// What a line tells its sender, and whether it changes the world.
struct Reply {
    text: Vec<u8>,
    shared: bool,
}

fn refused(refusal: Refusal) -> Reply {
    let mut text = Vec::new();
    put(&mut text, format_args!("refused {} {refusal:?}\n", refusal as u8));
    Reply { text, shared: false }
}

/// The lines of a text, each behind a user and a space.
fn tell(out: &mut Vec<u8>, user: &[u8], text: &[u8]) {
    for line in text.split_inclusive(|byte| *byte == b'\n') {
        out.extend_from_slice(user);
        out.push(b' ');
        out.extend_from_slice(line);
    }
}

/// What is told before the reply to a command that is accepted.
fn notice(clock: u32, command: &Command) -> Vec<u8> {
    let mut text = Vec::new();
    let (words, name) = match command {
        Command::Tick(ticks) => {
            put(&mut text, format_args!("clock {}\n", clock + ticks));
            return text;
        }
        Command::Watch(name, ..) => (format!(" watch {clock}\n"), name),
        Command::Keep(name, ..) => (format!(" keep {clock}\n"), name),
        Command::Drop(name) => ("\n".to_string(), name),
        _ => return text,
    };
    text.extend_from_slice(if words == "\n" { b"stop " } else { b"start " });
    text.extend_from_slice(name.text());
    text.extend_from_slice(words.as_bytes());
    text
}

impl User {
    /// Answers a command of the user's own that is read and may be given.
    fn answer(&mut self, command: Command, kind: Kind) -> Reply {
        let mut text = notice(self.session.history.clock, &command);
        match self.session.apply(command, &mut text) {
            Ok(Next::Accepted) => {
                text.extend_from_slice(b"ok\n");
                self.query_lines += usize::from(kind == Kind::Query);
                Reply { text, shared: kind == Kind::Data }
            }
            Err(Stop::Refused(refusal)) => refused(refusal),
            Ok(_) | Err(Stop::ShelfFault) => Reply { text: Vec::new(), shared: false },
        }
    }

    /// What the data line of another, which is accepted, tells the user.
    fn follow(&mut self, line: &[u8]) -> Vec<u8> {
        let before = self.session.history.clock;
        let mut changes = Vec::new();
        if self.session.step(line, &mut changes).is_err() {
            unreachable!("all users have one world");
        }
        let now = self.session.history.clock;
        let mut text = Vec::new();
        if now > before {
            put(&mut text, format_args!("clock {now}\n"));
        }
        text.append(&mut changes);
        text
    }
}

impl World {
    /// The place of a user, who is seated if there is room.
    fn place_of(&mut self, name: &[u8]) -> Option<usize> {
        let place = self.users.iter().position(|user| user.name == name);
        if place.is_none() && self.users.len() < USERS {
            self.users.push(User { name: name.to_vec(), session: self.newcomer.clone(), query_lines: 0 });
            return Some(self.users.len() - 1);
        }
        place
    }

    /// Whether a line passes the limits of lines.
    fn has_room(&self, place: usize, line: &[u8]) -> bool {
        match kind_of(first_word(line)) {
            Kind::Data => self.data_lines < DATA_LINES,
            Kind::Query => self.users[place].query_lines < QUERY_LINES,
            _ => true,
        }
    }

    /// Answers a line of the user at a place; whether that user's session has taken it is told too.
    fn reply(&mut self, place: usize, line: &[u8]) -> (Reply, bool) {
        if !self.has_room(place, line) {
            return (refused(Refusal::JournalFull), false);
        }
        let user = &mut self.users[place];
        match grammar::read(line, &mut user.session.tokens) {
            Err(fault) => (refused(fault.into()), true),
            Ok(command) => match kind_of(first_word(line)) {
                Kind::Barred => (refused(Refusal::BadSyntax), false),
                kind => (user.answer(command, kind), true),
            },
        }
    }

    /// Answers a line of input: adds what each user is told to `out`. Adds the line to the `view` of the user of that name
    /// where this user's session takes it.
    fn answer(&mut self, input: &[u8], out: &mut Vec<u8>, view: &mut View) {
        let Some((name, line)) = sent(input) else {
            return tell(out, b"?", &refused(Refusal::BadSyntax).text);
        };
        let Some(sender) = self.place_of(name) else {
            return tell(out, b"?", &refused(Refusal::StoreFull).text);
        };
        let (reply, taken) = self.reply(sender, line);
        view.add(name, line, taken, reply.shared);
        if !reply.shared {
            return tell(out, name, &reply.text);
        }
        self.data_lines += 1;
        let mut unheard = Vec::new();
        if self.newcomer.step(line, &mut unheard).is_err() {
            unreachable!("all users have one world");
        }
        for (place, user) in self.users.iter_mut().enumerate() {
            match place == sender {
                true => tell(out, name, &reply.text),
                false => {
                    let text = user.follow(line);
                    tell(out, &user.name, &text);
                }
            }
        }
    }
}

/// What of the input a session of one user alone would be given.
#[derive(Default)]
struct View {
    user: Option<Vec<u8>>,
    lines: Vec<u8>,
}

impl View {
    fn add(&mut self, sender: &[u8], line: &[u8], taken: bool, shared: bool) {
        let Some(user) = &self.user else { return };
        if shared || taken && user == sender {
            self.lines.extend_from_slice(line);
            self.lines.push(b'\n');
        }
    }
}

/// Before each line that is told stands the number of its line of input, where they are numbered.
fn run(mut view: View, numbered: bool) -> io::Result<()> {
    let mut input = BufReader::new(io::stdin().lock());
    let mut output = io::stdout().lock();
    let mut world = World { newcomer: Session { built: Built::All, ..Session::default() }, ..World::default() };
    let (mut line, mut out) = (Vec::new(), Vec::new());
    let mut count = 0;
    loop {
        line.clear();
        if input.read_until(b'\n', &mut line)? == 0 {
            break;
        }
        count += 1;
        if line.pop_if(|last| *last == b'\n').is_some() {
            line.pop_if(|last| *last == b'\r');
        }
        out.clear();
        world.answer(&line, &mut out, &mut view);
        if view.user.is_some() {
            out = std::mem::take(&mut view.lines);
        }
        if !numbered {
            output.write_all(&out)?;
            continue;
        }
        for line in out.split_inclusive(|byte| *byte == b'\n') {
            write!(output, "{count} ")?;
            output.write_all(line)?;
        }
    }
    Ok(())
}

/// No words: what all users are told. `--number` puts before each line of it the number of its line of input.
/// `--view USER` writes the lines that a session of this user alone is given in its place: the user's own, but for those of
/// commands that no user may give and those past a limit of lines, and the accepted data lines of others.
fn start(words: &[String]) -> io::Result<()> {
    let words: Vec<&str> = words.iter().map(String::as_str).collect();
    match words.as_slice() {
        [] => run(View::default(), false),
        ["--number"] => run(View::default(), true),
        ["--view", user] => run(View { user: Some(user.as_bytes().to_vec()), lines: Vec::new() }, false),
        _ => Err(io::Error::other("no words, --number or --view USER")),
    }
}

fn main() -> io::Result<ExitCode> {
    let words: Vec<String> = std::env::args().skip(1).collect();
    // a line of opening brackets is as deep as it is long
    let deep = std::thread::Builder::new().stack_size(1 << 28).spawn(move || start(&words))?;
    deep.join().expect("the input ends")?;
    Ok(ExitCode::SUCCESS)
}
