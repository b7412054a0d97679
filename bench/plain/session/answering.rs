// What a session answers to each line.
use super::history::{History, Refusal};
use super::live::{self, Registered};
use super::meaning::Blur;
use super::question::Question;
use super::reach::Index;
use super::resolve;
use crate::grammar::{self, Command, Query};
use std::io::Write;

/// The greatest span of a comparison that is judged tick by tick, where it needn't be.
const WALKED_SPAN: u32 = 1_000;

/// The commands that are answered; all others are refused as no command. Each has those before it too.
#[derive(Clone, Copy, Default, PartialEq, PartialOrd)]
pub enum Built {
    /// Data, and asks of one comparison of an attribute with a number.
    Data,
    Ask,
    Live,
    Files,
    Nearest,
    Blurred,
    Ranges,
    #[default]
    All,
}

impl Built {
    pub fn named(word: &str) -> Option<Built> {
        match word {
            "data" => Some(Built::Data),
            "ask" => Some(Built::Ask),
            "live" => Some(Built::Live),
            "files" => Some(Built::Files),
            "nearest" => Some(Built::Nearest),
            "blurred" => Some(Built::Blurred),
            "ranges" => Some(Built::Ranges),
            "all" => Some(Built::All),
            _ => None,
        }
    }

    fn has(self, command: &Command) -> bool {
        use Command::{Drop, Export, Import, Index, Keep, May, Must, Nearest, Range, Save, Show, Watch};
        match command {
            Command::Ask(_, query) => self >= Built::Ask || Question::of(query).is_some(),
            Watch(..) | Keep(..) | Show(_) | Drop(_) => self >= Built::Live,
            Save(_) | Import(..) | Export(..) => self >= Built::Files,
            Nearest(..) => self >= Built::Nearest,
            Must(..) | May(..) => self >= Built::Blurred,
            Index(..) | Range(..) => self >= Built::Ranges,
            _ => true,
        }
    }
}

#[derive(Clone, Default)]
pub struct Session {
    pub history: History,
    pub registered: Vec<Registered>,
    pub indexes: Vec<Index>,
    pub built: Built,
    /// The seed of the world in which `must` and `may` are answered, if there is one.
    pub world: Option<u64>,
    /// Whether a text is loaded, so that no answer is wanted.
    pub quiet: bool,
    pub tokens: Vec<grammar::Token>,
}

pub enum Next {
    Silent,
    Accepted,
    Quit,
}

/// Why a line isn't accepted.
pub enum Stop {
    Refused(Refusal),
    /// A file can't be read or written, which ends the run.
    ShelfFault,
}

impl From<Refusal> for Stop {
    fn from(refusal: Refusal) -> Stop {
        Stop::Refused(refusal)
    }
}

/// Whether the run goes on after a line.
#[derive(PartialEq)]
pub enum Run {
    On,
    Quit,
    ShelfFault,
}

impl Session {
    /// Answers one line: adds the reply to `out`.
    pub fn answer(&mut self, line: &[u8], out: &mut Vec<u8>) -> Run {
        let before = out.len();
        match self.step(line, out) {
            Ok(Next::Silent) => Run::On,
            Ok(Next::Accepted) => {
                out.extend_from_slice(b"ok\n");
                Run::On
            }
            Ok(Next::Quit) => {
                out.extend_from_slice(b"ok\n");
                Run::Quit
            }
            Err(Stop::Refused(refusal)) => {
                put(out, format_args!("refused {} {refusal:?}\n", refusal as u8));
                Run::On
            }
            Err(Stop::ShelfFault) => {
                out.truncate(before);
                Run::ShelfFault
            }
        }
    }

    pub fn step(&mut self, line: &[u8], out: &mut Vec<u8>) -> Result<Next, Stop> {
        let command = grammar::read(line, &mut self.tokens).map_err(Refusal::from)?;
        if !self.built.has(&command) {
            return Err(Refusal::BadSyntax.into());
        }
        self.apply(command, out)
    }

    pub fn apply(&mut self, command: Command, out: &mut Vec<u8>) -> Result<Next, Stop> {
        match command {
            Command::Nothing => return Ok(Next::Silent),
            Command::Quit => return Ok(Next::Quit),
            Command::Class(..) => self.history.make_class(command)?,
            Command::Region(..) => self.history.make_region(command)?,
            Command::Insert(..) | Command::Update(..) | Command::Remove(_) => self.write(command, out)?,
            Command::Tick(_) => self.tick(command, out)?,
            Command::Ask(span, query) => match Question::of(&query) {
                Some(question) if span > WALKED_SPAN => self.long_ask(span, &query, &question, out)?,
                _ => self.ask(span, &query, out)?,
            },
            Command::Watch(..) | Command::Keep(..) => self.register(command, out)?,
            Command::Show(name) => self.show(&name, out)?,
            Command::Drop(_) => self.drop_query(command)?,
            Command::List => self.list(out),
            Command::Save(file) => self.save(&file)?,
            Command::Import(class, file) => self.import(&class, &file, out)?,
            Command::Export(class, file) => self.export(&class, &file)?,
            Command::Nearest(span, k, object, class) => self.nearest(span, k, &object, &class, out)?,
            Command::Must(error, span, query) => {
                let blur = Blur { sure: true, error: error.into(), world: self.world };
                self.blurred(blur, span, &query, out)?;
            }
            Command::May(error, span, query) => {
                let blur = Blur { sure: false, error: error.into(), world: self.world };
                self.blurred(blur, span, &query, out)?;
            }
            Command::Index(class, attribute, _) => self.make_index(&class, &attribute)?,
            Command::Range(span, class, attribute, least, greatest) => {
                self.range(span, (&class, &attribute), (least, greatest), out)?;
            }
        }
        Ok(Next::Accepted)
    }

    /// An ask of one comparison, solved.
    fn long_ask(&self, span: u32, query: &Query, question: &Question, out: &mut Vec<u8>) -> Result<(), Refusal> {
        let (resolved, faults) = resolve::resolve(&self.history, query, span);
        resolve::first(faults)?;
        let class = &self.history.classes[resolved.classes[0]];
        let Some(attribute) = class.attribute(question.attribute) else { return Ok(()) };
        let now = self.history.clock;
        for object in class.objects.iter().map(|id| &self.history.objects[*id as usize]) {
            let Some(cells) = object.cells() else { continue };
            let runs = question.spans(&cells[attribute], now, now + span);
            if runs.is_empty() {
                continue;
            }
            out.extend_from_slice(live::mark(&runs, now).as_bytes());
            out.push(b' ');
            out.extend_from_slice(object.name.text());
            out.extend_from_slice(b" :");
            live::put_spans(out, &runs);
            out.push(b'\n');
        }
        Ok(())
    }

    fn list(&self, out: &mut Vec<u8>) {
        put(out, format_args!("clock {}\n", self.history.clock));
        for class in &self.history.classes {
            out.extend_from_slice(b"class ");
            out.extend_from_slice(class.name.text());
            put(out, format_args!(" {}/{}\n", class.objects.len(), class.capacity));
        }
        for region in &self.history.regions {
            out.extend_from_slice(b"region ");
            out.extend_from_slice(region.name.text());
            put(out, format_args!(" {}\n", region.points.len()));
        }
        for query in &self.registered {
            out.extend_from_slice(if query.keeps { b"keep " } else { b"watch " });
            out.extend_from_slice(query.name.text());
            put(out, format_args!(" {}..{}\n", query.entry, query.expiry));
        }
    }
}

pub fn put(out: &mut Vec<u8>, text: std::fmt::Arguments) {
    out.write_fmt(text).expect("a Vec takes all bytes");
}
