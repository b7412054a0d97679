// The language of commands in plain Rust without proofs: a line is read by recursive descent, and a command is
// printed as its canonical text. By itself it is the yardstick of `grammar`, which reads each line of standard
// input and prints it; `session.rs` stands on it too.
use std::hash::{Hash, Hasher};
use std::io::Read;
use std::time::Instant;

#[rustfmt::skip]
pub const WORDS: [&str; 48] = [
    "RETRIEVE", "FROM", "WHERE", "TRUE", "FALSE", "NOT", "AND", "OR", "UNTIL", "UNTIL_WITHIN", "UNTIL_AFTER",
    "NEXTTIME", "EVENTUALLY", "EVENTUALLY_WITHIN", "EVENTUALLY_AFTER", "ALWAYS", "ALWAYS_FOR", "INSIDE",
    "OUTSIDE", "DIST", "WITHIN_SPHERE", "TIME", "value", "updatetime", "function", "class", "region", "insert",
    "update", "remove", "tick", "ask", "watch", "keep", "show", "drop", "list", "save", "import", "export",
    "quit", "point", "num", "text", "dyn", "at", "move", "rate",
];

#[derive(Clone, Copy, PartialEq)]
pub enum Kind {
    Name,
    Number,
    Text,
    Sym(u8, u8),
    Key(u8),
}

#[derive(Clone, Copy)]
pub struct Token {
    kind: Kind,
    lo: u16,
    hi: u16,
}

#[derive(Clone, Copy, PartialEq, Eq)]
pub struct Word {
    bytes: [u8; 32],
    len: u8,
}

impl Hash for Word {
    fn hash<H: Hasher>(&self, state: &mut H) {
        state.write(self.text());
    }
}

impl Word {
    pub const EMPTY: Word = Word { bytes: [0; 32], len: 0 };

    pub fn of(text: &[u8]) -> Option<Word> {
        let mut bytes = [0; 32];
        bytes.get_mut(..text.len())?.copy_from_slice(text);
        Some(Word { bytes, len: text.len() as u8 })
    }

    pub fn text(&self) -> &[u8] {
        &self.bytes[..self.len as usize]
    }
}

pub enum Unit {
    Literal(i64),
    Text(Word),
    Alone(Word),
    Attr(Word, Word),
    Sub(Word, Word, u8),
    Time,
}

pub struct Signed {
    pub minus: bool,
    pub times: Option<u32>,
    pub unit: Unit,
}

pub type Term = Vec<Signed>;

pub enum Formula {
    Truth(bool),
    Compare(Term, u8, Term),
    Inside(bool, Word, Word),
    Dist(Word, Word, u8, i64),
    Sphere(i64, Vec<Word>),
    Unary(u8, u32, Box<Formula>),
    And(Box<Formula>, Box<Formula>),
    Or(Box<Formula>, Box<Formula>),
    Until(u8, u32, Box<Formula>, Box<Formula>),
    Assign(Word, Term, Box<Formula>),
}

pub struct Query {
    pub targets: Vec<Word>,
    pub from: Vec<(Word, Word)>,
    pub formula: Formula,
}

pub enum Given {
    Num(i64),
    Text(Word),
    Rate(Legs),
    Both(i64, Legs),
}

/// A function of linear legs: the slope and the ticks of each leg but the last, and the last one's slope.
#[derive(Clone, PartialEq)]
pub struct Legs {
    pub firsts: Box<[(i32, u32)]>,
    pub last: i32,
}

#[derive(Clone, Copy, PartialEq)]
pub enum AttrKind {
    Num,
    Text,
    Dyn,
}

pub struct Place {
    pub at: Option<(i64, i64)>,
    pub moving: Option<(Legs, Legs)>,
}

pub enum Command {
    Nothing,
    Class(Word, u32, bool, Vec<(Word, AttrKind)>),
    Region(Word, Vec<(i64, i64)>),
    Insert(Word, Word, Place, Vec<(Word, Given)>),
    Update(Word, Place, Vec<(Word, Given)>),
    Remove(Word),
    Tick(u32),
    Ask(u32, Query),
    Watch(Word, u32, Query),
    Keep(Word, u32, Query),
    Show(Word),
    Drop(Word),
    List,
    Save(Word),
    Import(Word, Word),
    Export(Word, Word),
    Quit,
    Nearest(u32, u32, Word, Word),
    Must(i64, u32, Query),
    May(i64, u32, Query),
    Index(Word, Word, i64),
    Range(u32, Word, Word, i64, i64),
}

#[derive(Clone, Copy, Debug, PartialEq)]
pub enum Fault {
    TooLong,
    NotAscii,
    BadToken,
    BadSyntax,
    NumberRange,
    TooLarge,
}

const fn key(word: &str) -> u8 {
    let word = word.as_bytes();
    let mut code = 0;
    loop {
        let other = WORDS[code].as_bytes();
        let mut at = 0;
        while at < word.len() && at < other.len() && word[at] == other[at] {
            at += 1;
        }
        if at == word.len() && at == other.len() {
            return code as u8;
        }
        code += 1;
    }
}

fn reserved(word: &[u8]) -> Option<u8> {
    let code = match word {
        b"RETRIEVE" => 0,
        b"FROM" => 1,
        b"WHERE" => 2,
        b"TRUE" => 3,
        b"FALSE" => 4,
        b"NOT" => 5,
        b"AND" => 6,
        b"OR" => 7,
        b"UNTIL" => 8,
        b"UNTIL_WITHIN" => 9,
        b"UNTIL_AFTER" => 10,
        b"NEXTTIME" => 11,
        b"EVENTUALLY" => 12,
        b"EVENTUALLY_WITHIN" => 13,
        b"EVENTUALLY_AFTER" => 14,
        b"ALWAYS" => 15,
        b"ALWAYS_FOR" => 16,
        b"INSIDE" => 17,
        b"OUTSIDE" => 18,
        b"DIST" => 19,
        b"WITHIN_SPHERE" => 20,
        b"TIME" => 21,
        b"value" => 22,
        b"updatetime" => 23,
        b"function" => 24,
        b"class" => 25,
        b"region" => 26,
        b"insert" => 27,
        b"update" => 28,
        b"remove" => 29,
        b"tick" => 30,
        b"ask" => 31,
        b"watch" => 32,
        b"keep" => 33,
        b"show" => 34,
        b"drop" => 35,
        b"list" => 36,
        b"save" => 37,
        b"import" => 38,
        b"export" => 39,
        b"quit" => 40,
        b"point" => 41,
        b"num" => 42,
        b"text" => 43,
        b"dyn" => 44,
        b"at" => 45,
        b"move" => 46,
        b"rate" => 47,
        _ => return None,
    };
    Some(code)
}

fn lex(line: &[u8], tokens: &mut Vec<Token>) -> Result<(), Fault> {
    tokens.clear();
    let mut at = 0;
    while at < line.len() {
        let lo = at;
        let byte = line[at];
        let kind = match byte {
            b' ' | b'\t' => {
                at += 1;
                continue;
            }
            b'a'..=b'z' | b'A'..=b'Z' | b'_' => {
                while at < line.len() && (line[at].is_ascii_alphanumeric() || line[at] == b'_') {
                    at += 1;
                }
                match reserved(&line[lo..at]) {
                    Some(code) => Kind::Key(code),
                    None => Kind::Name,
                }
            }
            b'0'..=b'9' => {
                while at < line.len() && line[at].is_ascii_digit() {
                    at += 1;
                }
                if at + 1 < line.len() && line[at] == b'.' && line[at + 1].is_ascii_digit() {
                    at += 1;
                    while at < line.len() && line[at].is_ascii_digit() {
                        at += 1;
                    }
                }
                Kind::Number
            }
            b'"' => {
                let inner = line[at + 1..].iter().position(|b| *b == b'"').ok_or(Fault::BadToken)?;
                at += inner + 2;
                Kind::Text
            }
            b'!' | b'<' | b'>' => {
                let next = line.get(at + 1).copied().unwrap_or(0);
                if next == b'=' || (byte == b'<' && next == b'-') {
                    at += 2;
                    Kind::Sym(byte, next)
                } else if byte != b'!' {
                    at += 1;
                    Kind::Sym(byte, 0)
                } else {
                    return Err(Fault::BadToken);
                }
            }
            b'(' | b')' | b'[' | b']' | b',' | b'.' | b'+' | b'-' | b'*' | b'=' => {
                at += 1;
                Kind::Sym(byte, 0)
            }
            _ => return Err(Fault::BadToken),
        };
        tokens.push(Token { kind, lo: lo as u16, hi: at as u16 });
    }
    Ok(())
}

fn decimal(text: &[u8], limit: i64) -> Option<i64> {
    let (whole, part) = match text.iter().position(|b| *b == b'.') {
        Some(dot) => (&text[..dot], &text[dot + 1..]),
        None => (text, &text[..0]),
    };
    if whole.len() > 10 || part.len() > 3 {
        return None;
    }
    let mut value = 0;
    for byte in whole {
        value = value * 10 + i64::from(byte - b'0');
    }
    for i in 0..3 {
        value = value * 10 + part.get(i).map_or(0, |b| i64::from(b - b'0'));
    }
    (value <= limit).then_some(value)
}

/// The number of a field of a file, in thousandths: digits with at most ten before and three after a point, with a
/// sign or without.
pub fn signed(text: &[u8], limit: i64) -> Option<i64> {
    let size = text.strip_prefix(b"-").unwrap_or(text);
    let mut parts = size.splitn(2, |byte| *byte == b'.');
    if !parts.all(|part| !part.is_empty() && part.iter().all(u8::is_ascii_digit)) {
        return None;
    }
    let value = decimal(size, limit)?;
    Some(if size.len() < text.len() { -value } else { value })
}

/// Whether the text is a name and no reserved word.
pub fn is_name(text: &[u8]) -> bool {
    let is_letter = |byte: &u8| byte.is_ascii_alphabetic() || *byte == b'_';
    text.first().is_some_and(is_letter)
        && text.iter().all(|byte| is_letter(byte) || byte.is_ascii_digit())
        && reserved(text).is_none()
}

fn whole(text: &[u8], lo: u64, hi: u64) -> Option<u32> {
    let mut value = 0u64;
    for byte in text {
        if !byte.is_ascii_digit() {
            return None;
        }
        value = value.saturating_mul(10).saturating_add(u64::from(byte - b'0'));
    }
    (lo <= value && value <= hi).then_some(value as u32)
}

const RETRIEVE: u8 = key("RETRIEVE");
const FROM: u8 = key("FROM");
const WHERE: u8 = key("WHERE");
const TRUE: u8 = key("TRUE");
const FALSE: u8 = key("FALSE");
const NOT: u8 = key("NOT");
const AND: u8 = key("AND");
const OR: u8 = key("OR");
const UNTIL: u8 = key("UNTIL");
const INSIDE: u8 = key("INSIDE");
const OUTSIDE: u8 = key("OUTSIDE");
const DIST: u8 = key("DIST");
const SPHERE: u8 = key("WITHIN_SPHERE");
const TIME: u8 = key("TIME");
const VALUE: u8 = key("value");
const CLASS: u8 = key("class");
const REGION: u8 = key("region");
const INSERT: u8 = key("insert");
const UPDATE: u8 = key("update");
const REMOVE: u8 = key("remove");
const TICK: u8 = key("tick");
const ASK: u8 = key("ask");
const WATCH: u8 = key("watch");
const KEEP: u8 = key("keep");
const SHOW: u8 = key("show");
const DROP: u8 = key("drop");
const LIST: u8 = key("list");
const SAVE: u8 = key("save");
const IMPORT: u8 = key("import");
const EXPORT: u8 = key("export");
const QUIT: u8 = key("quit");
const POINT: u8 = key("point");
const NUM: u8 = key("num");
const TEXT: u8 = key("text");
const DYN: u8 = key("dyn");
const AT: u8 = key("at");
const MOVE: u8 = key("move");
const RATE: u8 = key("rate");

/// The greatest size of a value and of a slope, in thousandths, and the last tick.
pub const VALUE_LIMIT: i64 = 1_000_000_000_000;
pub const SLOPE_LIMIT: i64 = 1_000_000;
const LAST_TICK: u64 = 1_000_000_000;

struct Reader<'a> {
    line: &'a [u8],
    tokens: &'a [Token],
    at: usize,
    far: bool,
    large: bool,
    nodes: usize,
}

impl Reader<'_> {
    fn peek(&self) -> Option<Kind> {
        self.tokens.get(self.at).map(|t| t.kind)
    }

    fn take(&mut self, kind: Kind) -> Result<(), Fault> {
        if self.peek() == Some(kind) {
            self.at += 1;
            return Ok(());
        }
        Err(Fault::BadSyntax)
    }

    fn symbol(&mut self, byte: u8) -> Result<(), Fault> {
        self.take(Kind::Sym(byte, 0))
    }

    fn text_of(&mut self, kind: Kind) -> Result<(u16, u16), Fault> {
        let token = *self.tokens.get(self.at).ok_or(Fault::BadSyntax)?;
        if token.kind != kind {
            return Err(Fault::BadSyntax);
        }
        self.at += 1;
        Ok((token.lo, token.hi))
    }

    fn word(&mut self, lo: u16, hi: u16) -> Word {
        Word::of(&self.line[lo as usize..hi as usize]).unwrap_or_else(|| {
            self.large = true;
            Word::EMPTY
        })
    }

    fn name(&mut self) -> Result<Word, Fault> {
        let (lo, hi) = self.text_of(Kind::Name)?;
        Ok(self.word(lo, hi))
    }

    fn quoted(&mut self) -> Result<Word, Fault> {
        let (lo, hi) = self.text_of(Kind::Text)?;
        Ok(self.word(lo + 1, hi - 1))
    }

    fn unsigned(&mut self, limit: i64) -> Result<i64, Fault> {
        let (lo, hi) = self.text_of(Kind::Number)?;
        let value = decimal(&self.line[lo as usize..hi as usize], limit);
        self.far |= value.is_none();
        Ok(value.unwrap_or(0))
    }

    fn number(&mut self, limit: i64) -> Result<i64, Fault> {
        let minus = self.symbol(b'-').is_ok();
        let value = self.unsigned(limit)?;
        Ok(if minus { -value } else { value })
    }

    fn count(&mut self, lo: u64, hi: u64) -> Result<u32, Fault> {
        let (from, to) = self.text_of(Kind::Number)?;
        let value = whole(&self.line[from as usize..to as usize], lo, hi);
        self.far |= value.is_none();
        Ok(value.unwrap_or(0))
    }

    fn pair(&mut self, limit: i64) -> Result<(i64, i64), Fault> {
        self.symbol(b'(')?;
        let x = self.number(limit)?;
        self.symbol(b',')?;
        let y = self.number(limit)?;
        self.symbol(b')')?;
        Ok((x, y))
    }

    fn place(&mut self) -> Result<Place, Fault> {
        let at = match self.take(Kind::Key(AT)) {
            Ok(()) => Some(self.pair(VALUE_LIMIT)?),
            Err(_) => None,
        };
        let moving = match self.take(Kind::Key(MOVE)) {
            Ok(()) => Some(self.moves()?),
            Err(_) => None,
        };
        Ok(Place { at, moving })
    }

    fn moves(&mut self) -> Result<(Legs, Legs), Fault> {
        let (mut xs, mut ys) = (Vec::new(), Vec::new());
        while self.symbol(b'[').is_ok() {
            let (x, y) = self.pair(SLOPE_LIMIT)?;
            self.symbol(b',')?;
            let ticks = self.count(1, LAST_TICK)?;
            self.symbol(b']')?;
            xs.push((x as i32, ticks));
            ys.push((y as i32, ticks));
        }
        self.large |= xs.len() > 7;
        let (x, y) = self.pair(SLOPE_LIMIT)?;
        Ok((Legs { firsts: xs.into(), last: x as i32 }, Legs { firsts: ys.into(), last: y as i32 }))
    }

    fn rates(&mut self) -> Result<Legs, Fault> {
        let mut firsts = Vec::new();
        while self.symbol(b'[').is_ok() {
            let slope = self.number(SLOPE_LIMIT)?;
            self.symbol(b',')?;
            let ticks = self.count(1, LAST_TICK)?;
            self.symbol(b']')?;
            firsts.push((slope as i32, ticks));
        }
        self.large |= firsts.len() > 7;
        let last = self.number(SLOPE_LIMIT)? as i32;
        Ok(Legs { firsts: firsts.into(), last })
    }

    fn settings(&mut self) -> Result<Vec<(Word, Given)>, Fault> {
        let mut all = Vec::new();
        while self.at < self.tokens.len() {
            let name = self.name()?;
            all.push((name, self.given()?));
        }
        Ok(all)
    }

    fn given(&mut self) -> Result<Given, Fault> {
        let rate = Kind::Key(RATE);
        if self.take(rate).is_ok() {
            return Ok(Given::Rate(self.rates()?));
        }
        self.symbol(b'=')?;
        if self.peek() == Some(Kind::Text) {
            return Ok(Given::Text(self.quoted()?));
        }
        let value = self.number(VALUE_LIMIT)?;
        if self.take(rate).is_ok() {
            return Ok(Given::Both(value, self.rates()?));
        }
        Ok(Given::Num(value))
    }

    fn class(&mut self) -> Result<Command, Fault> {
        let name = self.name()?;
        let capacity = self.count(1, 100_000)?;
        let point = self.take(Kind::Key(POINT)).is_ok();
        let mut attrs = Vec::new();
        if self.symbol(b'(').is_ok() {
            attrs.push(self.attribute()?);
            while self.symbol(b',').is_ok() {
                attrs.push(self.attribute()?);
            }
            self.symbol(b')')?;
        }
        self.large |= attrs.len() > 16;
        Ok(Command::Class(name, capacity, point, attrs))
    }

    fn attribute(&mut self) -> Result<(Word, AttrKind), Fault> {
        let name = self.name()?;
        let kind = match self.peek() {
            Some(Kind::Key(NUM)) => AttrKind::Num,
            Some(Kind::Key(TEXT)) => AttrKind::Text,
            Some(Kind::Key(DYN)) => AttrKind::Dyn,
            _ => return Err(Fault::BadSyntax),
        };
        self.at += 1;
        Ok((name, kind))
    }

    fn region(&mut self) -> Result<Command, Fault> {
        let name = self.name()?;
        let mut points = Vec::new();
        while self.at < self.tokens.len() {
            points.push(self.pair(VALUE_LIMIT)?);
        }
        if points.len() < 3 {
            return Err(Fault::BadSyntax);
        }
        self.large |= points.len() > 64;
        Ok(Command::Region(name, points))
    }

    /// A command whose first word is no reserved one.
    fn named(&mut self, word: &[u8]) -> Result<Command, Fault> {
        match word {
            b"nearest" => {
                let (span, count) = (self.count(0, LAST_TICK)?, self.count(1, 100)?);
                Ok(Command::Nearest(span, count, self.name()?, self.name()?))
            }
            b"must" => {
                let (error, span) = (self.unsigned(SLOPE_LIMIT)?, self.count(0, LAST_TICK)?);
                Ok(Command::Must(error, span, self.query()?))
            }
            b"may" => {
                let (error, span) = (self.unsigned(SLOPE_LIMIT)?, self.count(0, LAST_TICK)?);
                Ok(Command::May(error, span, self.query()?))
            }
            b"index" => {
                let (class, attribute) = (self.name()?, self.name()?);
                let width = self.number(VALUE_LIMIT)?;
                self.far |= width < 1;
                Ok(Command::Index(class, attribute, width))
            }
            b"range" => {
                let span = self.count(0, LAST_TICK)?;
                let (class, attribute) = (self.name()?, self.name()?);
                Ok(Command::Range(span, class, attribute, self.number(VALUE_LIMIT)?, self.number(VALUE_LIMIT)?))
            }
            _ => Err(Fault::BadSyntax),
        }
    }

    fn command(&mut self) -> Result<Command, Fault> {
        let Some(first) = self.tokens.first() else { return Ok(Command::Nothing) };
        self.at = 1;
        let command = match first.kind {
            Kind::Key(CLASS) => self.class()?,
            Kind::Key(REGION) => self.region()?,
            Kind::Key(INSERT) => {
                let (class, name) = (self.name()?, self.name()?);
                Command::Insert(class, name, self.place()?, self.settings()?)
            }
            Kind::Key(UPDATE) => Command::Update(self.name()?, self.place()?, self.settings()?),
            Kind::Key(REMOVE) => Command::Remove(self.name()?),
            Kind::Key(TICK) => Command::Tick(self.count(1, LAST_TICK)?),
            Kind::Key(ASK) => Command::Ask(self.count(0, LAST_TICK)?, self.query()?),
            Kind::Key(WATCH) => Command::Watch(self.name()?, self.count(0, LAST_TICK)?, self.query()?),
            Kind::Key(KEEP) => Command::Keep(self.name()?, self.count(0, LAST_TICK)?, self.query()?),
            Kind::Key(SHOW) => Command::Show(self.name()?),
            Kind::Key(DROP) => Command::Drop(self.name()?),
            Kind::Key(LIST) => Command::List,
            Kind::Key(SAVE) => Command::Save(self.quoted()?),
            Kind::Key(IMPORT) => Command::Import(self.name()?, self.quoted()?),
            Kind::Key(EXPORT) => Command::Export(self.name()?, self.quoted()?),
            Kind::Key(QUIT) => Command::Quit,
            Kind::Name => self.named(&self.line[first.lo as usize..first.hi as usize])?,
            _ => return Err(Fault::BadSyntax),
        };
        if self.at < self.tokens.len() {
            return Err(Fault::BadSyntax);
        }
        Ok(command)
    }

    fn query(&mut self) -> Result<Query, Fault> {
        self.take(Kind::Key(RETRIEVE))?;
        let mut targets = vec![self.name()?];
        while self.symbol(b',').is_ok() {
            targets.push(self.name()?);
        }
        self.take(Kind::Key(FROM))?;
        let mut from = vec![(self.name()?, self.name()?)];
        while self.symbol(b',').is_ok() {
            from.push((self.name()?, self.name()?));
        }
        self.large |= from.len() > 4;
        self.take(Kind::Key(WHERE))?;
        let (formula, depth, nested) = self.formula()?;
        self.large |= depth > 32 || nested > 2 || self.nodes > 256;
        Ok(Query { targets, from, formula })
    }

    fn formula(&mut self) -> Result<(Formula, usize, usize), Fault> {
        let mut left = self.conjunction()?;
        while self.take(Kind::Key(OR)).is_ok() {
            let right = self.conjunction()?;
            left = self.node(left, right, Formula::Or);
        }
        Ok(left)
    }

    fn conjunction(&mut self) -> Result<(Formula, usize, usize), Fault> {
        let mut left = self.chain()?;
        while self.take(Kind::Key(AND)).is_ok() {
            let right = self.chain()?;
            left = self.node(left, right, Formula::And);
        }
        Ok(left)
    }

    fn node(
        &mut self,
        left: (Formula, usize, usize),
        right: (Formula, usize, usize),
        join: impl Fn(Box<Formula>, Box<Formula>) -> Formula,
    ) -> (Formula, usize, usize) {
        self.nodes += 1;
        let depth = left.1.max(right.1) + 1;
        (join(Box::new(left.0), Box::new(right.0)), depth, left.2.max(right.2))
    }

    fn chain(&mut self) -> Result<(Formula, usize, usize), Fault> {
        let left = self.unary()?;
        let form = match self.peek() {
            Some(Kind::Key(code)) if (UNTIL..UNTIL + 3).contains(&code) => code - UNTIL,
            _ => return Ok(left),
        };
        self.at += 1;
        let bound = if form == 0 { 0 } else { self.count(0, LAST_TICK)? };
        let right = self.chain()?;
        Ok(self.node(left, right, |f, g| Formula::Until(form, bound, f, g)))
    }

    fn unary(&mut self) -> Result<(Formula, usize, usize), Fault> {
        match self.peek() {
            Some(Kind::Key(code)) if code == NOT || (11..=16).contains(&code) => {
                self.at += 1;
                let bounded = matches!(code, 13 | 14 | 16);
                let bound = if bounded { self.count(0, LAST_TICK)? } else { 0 };
                let (inner, depth, nested) = self.unary()?;
                self.nodes += 1;
                Ok((Formula::Unary(code, bound, Box::new(inner)), depth + 1, nested))
            }
            Some(Kind::Sym(b'[', _)) => {
                self.at += 1;
                let name = self.name()?;
                self.take(Kind::Sym(b'<', b'-'))?;
                let term = self.term()?;
                self.symbol(b']')?;
                let (inner, depth, nested) = self.unary()?;
                self.nodes += 1;
                Ok((Formula::Assign(name, term, Box::new(inner)), depth + 1, nested + 1))
            }
            Some(Kind::Sym(b'(', _)) => {
                self.at += 1;
                let inner = self.formula()?;
                self.symbol(b')')?;
                Ok(inner)
            }
            _ => {
                self.nodes += 1;
                Ok((self.atom()?, 1, 0))
            }
        }
    }

    fn atom(&mut self) -> Result<Formula, Fault> {
        match self.peek() {
            Some(Kind::Key(code)) if code == TRUE || code == FALSE => {
                self.at += 1;
                Ok(Formula::Truth(code == TRUE))
            }
            Some(Kind::Key(code)) if code == INSIDE || code == OUTSIDE => {
                self.at += 1;
                let (a, b) = self.names()?;
                Ok(Formula::Inside(code == INSIDE, a, b))
            }
            Some(Kind::Key(code)) if code == DIST => {
                self.at += 1;
                let (a, b) = self.names()?;
                let op = self.comparison()?;
                Ok(Formula::Dist(a, b, op, self.number(VALUE_LIMIT)?))
            }
            Some(Kind::Key(code)) if code == SPHERE => {
                self.at += 1;
                self.symbol(b'(')?;
                let radius = self.unsigned(1_000_000)?;
                let mut names = Vec::new();
                while self.symbol(b',').is_ok() {
                    names.push(self.name()?);
                }
                self.symbol(b')')?;
                if names.is_empty() {
                    return Err(Fault::BadSyntax);
                }
                self.large |= names.len() > 4;
                Ok(Formula::Sphere(radius, names))
            }
            _ => {
                let left = self.term()?;
                let op = self.comparison()?;
                Ok(Formula::Compare(left, op, self.term()?))
            }
        }
    }

    fn names(&mut self) -> Result<(Word, Word), Fault> {
        self.symbol(b'(')?;
        let a = self.name()?;
        self.symbol(b',')?;
        let b = self.name()?;
        self.symbol(b')')?;
        Ok((a, b))
    }

    fn comparison(&mut self) -> Result<u8, Fault> {
        let op = match self.peek() {
            Some(Kind::Sym(b'<', 0)) => 0,
            Some(Kind::Sym(b'<', b'=')) => 1,
            Some(Kind::Sym(b'=', 0)) => 2,
            Some(Kind::Sym(b'!', b'=')) => 3,
            Some(Kind::Sym(b'>', b'=')) => 4,
            Some(Kind::Sym(b'>', 0)) => 5,
            _ => return Err(Fault::BadSyntax),
        };
        self.at += 1;
        Ok(op)
    }

    fn term(&mut self) -> Result<Term, Fault> {
        let minus = self.symbol(b'-').is_ok();
        let mut all = vec![self.factor(minus)?];
        loop {
            let minus = match self.peek() {
                Some(Kind::Sym(b'+', _)) => false,
                Some(Kind::Sym(b'-', _)) => true,
                _ => break,
            };
            self.at += 1;
            all.push(self.factor(minus)?);
        }
        self.large |= all.len() > 16;
        Ok(all)
    }

    fn factor(&mut self, minus: bool) -> Result<Signed, Fault> {
        match self.peek() {
            Some(Kind::Number) => {
                if self.tokens.get(self.at + 1).map(|t| t.kind) == Some(Kind::Sym(b'*', 0)) {
                    let times = Some(self.count(0, 1_000_000)?);
                    self.at += 1;
                    return Ok(Signed { minus, times, unit: self.reference()? });
                }
                let unit = Unit::Literal(self.unsigned(VALUE_LIMIT)?);
                Ok(Signed { minus, times: None, unit })
            }
            Some(Kind::Text) => Ok(Signed { minus, times: None, unit: Unit::Text(self.quoted()?) }),
            _ => Ok(Signed { minus, times: None, unit: self.reference()? }),
        }
    }

    fn reference(&mut self) -> Result<Unit, Fault> {
        if self.take(Kind::Key(TIME)).is_ok() {
            return Ok(Unit::Time);
        }
        let name = self.name()?;
        if self.symbol(b'.').is_err() {
            return Ok(Unit::Alone(name));
        }
        let attribute = self.name()?;
        if self.symbol(b'.').is_err() {
            return Ok(Unit::Attr(name, attribute));
        }
        match self.peek() {
            Some(Kind::Key(code)) if (VALUE..VALUE + 3).contains(&code) => {
                self.at += 1;
                Ok(Unit::Sub(name, attribute, code))
            }
            _ => Err(Fault::BadSyntax),
        }
    }
}

pub fn read(line: &[u8], tokens: &mut Vec<Token>) -> Result<Command, Fault> {
    read_to(line, tokens, 4096)
}

/// The same with another greatest number of bytes.
pub fn read_to(line: &[u8], tokens: &mut Vec<Token>, limit: usize) -> Result<Command, Fault> {
    if line.len() > limit {
        return Err(Fault::TooLong);
    }
    if line.iter().any(|b| *b != b'\t' && !(0x20..=0x7e).contains(b)) {
        return Err(Fault::NotAscii);
    }
    if line.trim_ascii_start().starts_with(b"#") {
        return Ok(Command::Nothing);
    }
    lex(line, tokens)?;
    let mut reader = Reader { line, tokens, at: 0, far: false, large: false, nodes: 0 };
    let command = reader.command()?;
    if reader.far {
        return Err(Fault::NumberRange);
    }
    if reader.large {
        return Err(Fault::TooLarge);
    }
    Ok(command)
}

pub fn put_count(out: &mut Vec<u8>, n: u64) {
    let mut digits = [0; 20];
    let mut at = 20;
    let mut rest = n;
    loop {
        at -= 1;
        digits[at] = b'0' + (rest % 10) as u8;
        rest /= 10;
        if rest == 0 {
            break;
        }
    }
    out.extend_from_slice(&digits[at..]);
}

pub fn put_number(out: &mut Vec<u8>, n: i64) {
    if n < 0 {
        out.push(b'-');
    }
    let size = n.unsigned_abs();
    put_count(out, size / 1000);
    let part = size % 1000;
    if part > 0 {
        let digits = [b'0' + (part / 100) as u8, b'0' + (part / 10 % 10) as u8, b'0' + (part % 10) as u8];
        let len = 3 - digits.iter().rev().take_while(|b| **b == b'0').count();
        out.push(b'.');
        out.extend_from_slice(&digits[..len]);
    }
}

fn put_pair(out: &mut Vec<u8>, pair: (i64, i64)) {
    out.push(b'(');
    put_number(out, pair.0);
    out.push(b',');
    put_number(out, pair.1);
    out.push(b')');
}

fn put_moves(out: &mut Vec<u8>, moving: &(Legs, Legs)) {
    for (x, y) in moving.0.firsts.iter().zip(&moving.1.firsts) {
        out.push(b'[');
        put_pair(out, (i64::from(x.0), i64::from(y.0)));
        out.push(b',');
        put_count(out, u64::from(x.1));
        out.extend_from_slice(b"] ");
    }
    put_pair(out, (i64::from(moving.0.last), i64::from(moving.1.last)));
}

fn put_rates(out: &mut Vec<u8>, legs: &Legs) {
    for (slope, ticks) in &legs.firsts {
        out.push(b'[');
        put_number(out, i64::from(*slope));
        out.push(b',');
        put_count(out, u64::from(*ticks));
        out.extend_from_slice(b"] ");
    }
    put_number(out, i64::from(legs.last));
}

fn put_place(out: &mut Vec<u8>, place: &Place) {
    if let Some(at) = place.at {
        out.extend_from_slice(b" at ");
        put_pair(out, at);
    }
    if let Some(moving) = &place.moving {
        out.extend_from_slice(b" move ");
        put_moves(out, moving);
    }
}

fn put_quoted(out: &mut Vec<u8>, text: &Word) {
    out.push(b'"');
    out.extend_from_slice(text.text());
    out.push(b'"');
}

fn put_settings(out: &mut Vec<u8>, sets: &[(Word, Given)]) {
    for (name, given) in sets {
        out.push(b' ');
        out.extend_from_slice(name.text());
        match given {
            Given::Num(n) => {
                out.extend_from_slice(b" = ");
                put_number(out, *n);
            }
            Given::Text(text) => {
                out.extend_from_slice(b" = ");
                put_quoted(out, text);
            }
            Given::Rate(legs) => {
                out.extend_from_slice(b" rate ");
                put_rates(out, legs);
            }
            Given::Both(n, legs) => {
                out.extend_from_slice(b" = ");
                put_number(out, *n);
                out.extend_from_slice(b" rate ");
                put_rates(out, legs);
            }
        }
    }
}

fn put_list<T>(out: &mut Vec<u8>, all: &[T], put: impl Fn(&mut Vec<u8>, &T)) {
    for (i, item) in all.iter().enumerate() {
        if i > 0 {
            out.push(b',');
        }
        put(out, item);
    }
}

fn put_term(out: &mut Vec<u8>, term: &[Signed]) {
    for (i, factor) in term.iter().enumerate() {
        match (i, factor.minus) {
            (0, true) => out.push(b'-'),
            (0, false) => {}
            (_, true) => out.extend_from_slice(b" - "),
            (_, false) => out.extend_from_slice(b" + "),
        }
        if let Some(times) = factor.times {
            put_count(out, u64::from(times));
            out.extend_from_slice(b" * ");
        }
        match &factor.unit {
            Unit::Literal(n) => put_number(out, *n),
            Unit::Text(text) => put_quoted(out, text),
            Unit::Alone(name) => out.extend_from_slice(name.text()),
            Unit::Attr(name, attribute) => {
                out.extend_from_slice(name.text());
                out.push(b'.');
                out.extend_from_slice(attribute.text());
            }
            Unit::Sub(name, attribute, code) => {
                out.extend_from_slice(name.text());
                out.push(b'.');
                out.extend_from_slice(attribute.text());
                out.push(b'.');
                out.extend_from_slice(WORDS[*code as usize].as_bytes());
            }
            Unit::Time => out.extend_from_slice(b"TIME"),
        }
    }
}

const OPS: [&str; 6] = ["<", "<=", "=", "!=", ">=", ">"];

fn put_binary(out: &mut Vec<u8>, left: &Formula, word: &str, right: &Formula) {
    out.push(b'(');
    put_formula(out, left);
    out.push(b' ');
    out.extend_from_slice(word.as_bytes());
    out.push(b' ');
    put_formula(out, right);
    out.push(b')');
}

fn put_names(out: &mut Vec<u8>, word: &str, a: &Word, b: &Word) {
    out.extend_from_slice(word.as_bytes());
    out.push(b'(');
    out.extend_from_slice(a.text());
    out.push(b',');
    out.extend_from_slice(b.text());
    out.push(b')');
}

fn put_formula(out: &mut Vec<u8>, formula: &Formula) {
    match formula {
        Formula::Truth(true) => out.extend_from_slice(b"TRUE"),
        Formula::Truth(false) => out.extend_from_slice(b"FALSE"),
        Formula::Compare(left, op, right) => {
            put_term(out, left);
            out.push(b' ');
            out.extend_from_slice(OPS[*op as usize].as_bytes());
            out.push(b' ');
            put_term(out, right);
        }
        Formula::Inside(inside, a, b) => put_names(out, if *inside { "INSIDE" } else { "OUTSIDE" }, a, b),
        Formula::Dist(a, b, op, n) => {
            put_names(out, "DIST", a, b);
            out.push(b' ');
            out.extend_from_slice(OPS[*op as usize].as_bytes());
            out.push(b' ');
            put_number(out, *n);
        }
        Formula::Sphere(radius, names) => {
            out.extend_from_slice(b"WITHIN_SPHERE(");
            put_number(out, *radius);
            for name in names {
                out.push(b',');
                out.extend_from_slice(name.text());
            }
            out.push(b')');
        }
        Formula::Unary(code, bound, inner) => {
            out.extend_from_slice(WORDS[*code as usize].as_bytes());
            out.push(b' ');
            if matches!(code, 13 | 14 | 16) {
                put_count(out, u64::from(*bound));
                out.push(b' ');
            }
            put_formula(out, inner);
        }
        Formula::And(f, g) => put_binary(out, f, "AND", g),
        Formula::Or(f, g) => put_binary(out, f, "OR", g),
        Formula::Until(0, _, f, g) => put_binary(out, f, "UNTIL", g),
        Formula::Until(form, bound, f, g) => {
            out.push(b'(');
            put_formula(out, f);
            out.extend_from_slice(if *form == 1 { b" UNTIL_WITHIN " } else { b" UNTIL_AFTER " });
            put_count(out, u64::from(*bound));
            out.push(b' ');
            put_formula(out, g);
            out.push(b')');
        }
        Formula::Assign(name, term, inner) => {
            out.push(b'[');
            out.extend_from_slice(name.text());
            out.extend_from_slice(b" <- ");
            put_term(out, term);
            out.extend_from_slice(b"] ");
            put_formula(out, inner);
        }
    }
}

fn put_query(out: &mut Vec<u8>, query: &Query) {
    out.extend_from_slice(b"RETRIEVE ");
    put_list(out, &query.targets, |out, name| out.extend_from_slice(name.text()));
    out.extend_from_slice(b" FROM ");
    put_list(out, &query.from, |out, (class, name)| put_words(out, &[class.text(), name.text()]));
    out.extend_from_slice(b" WHERE ");
    put_formula(out, &query.formula);
}

/// The words with one space between.
fn put_words(out: &mut Vec<u8>, words: &[&[u8]]) {
    for (i, word) in words.iter().enumerate() {
        if i > 0 {
            out.push(b' ');
        }
        out.extend_from_slice(word);
    }
}

/// Adds the canonical line of the command to `out`.
pub fn put_command(out: &mut Vec<u8>, command: &Command) {
    match command {
        Command::Nothing => {}
        Command::Class(name, capacity, point, attrs) => {
            put_words(out, &[b"class", name.text(), b""]);
            put_count(out, u64::from(*capacity));
            if *point {
                out.extend_from_slice(b" point");
            }
            if !attrs.is_empty() {
                out.extend_from_slice(b" (");
                put_list(out, attrs, |out, (name, kind)| {
                    let kind = match kind {
                        AttrKind::Num => "num",
                        AttrKind::Text => "text",
                        AttrKind::Dyn => "dyn",
                    };
                    put_words(out, &[name.text(), kind.as_bytes()]);
                });
                out.push(b')');
            }
        }
        Command::Region(name, points) => {
            put_words(out, &[b"region", name.text()]);
            for point in points {
                out.push(b' ');
                put_pair(out, *point);
            }
        }
        Command::Insert(class, name, place, sets) => {
            put_words(out, &[b"insert", class.text(), name.text()]);
            put_place(out, place);
            put_settings(out, sets);
        }
        Command::Update(name, place, sets) => {
            put_words(out, &[b"update", name.text()]);
            put_place(out, place);
            put_settings(out, sets);
        }
        Command::Remove(name) => put_words(out, &[b"remove", name.text()]),
        Command::Tick(ticks) => {
            out.extend_from_slice(b"tick ");
            put_count(out, u64::from(*ticks));
        }
        Command::Ask(span, query) => {
            out.extend_from_slice(b"ask ");
            put_count(out, u64::from(*span));
            out.push(b' ');
            put_query(out, query);
        }
        Command::Watch(name, span, query) | Command::Keep(name, span, query) => {
            let word = if matches!(command, Command::Watch(..)) { "watch" } else { "keep" };
            put_words(out, &[word.as_bytes(), name.text(), b""]);
            put_count(out, u64::from(*span));
            out.push(b' ');
            put_query(out, query);
        }
        Command::Show(name) => put_words(out, &[b"show", name.text()]),
        Command::Drop(name) => put_words(out, &[b"drop", name.text()]),
        Command::List => out.extend_from_slice(b"list"),
        Command::Save(file) => {
            out.extend_from_slice(b"save ");
            put_quoted(out, file);
        }
        Command::Import(class, file) => {
            put_words(out, &[b"import", class.text(), b""]);
            put_quoted(out, file);
        }
        Command::Export(class, file) => {
            put_words(out, &[b"export", class.text(), b""]);
            put_quoted(out, file);
        }
        Command::Quit => out.extend_from_slice(b"quit"),
        Command::Nearest(span, count, object, class) => {
            out.extend_from_slice(b"nearest ");
            put_count(out, u64::from(*span));
            out.push(b' ');
            put_count(out, u64::from(*count));
            out.push(b' ');
            put_words(out, &[object.text(), class.text()]);
        }
        Command::Must(error, span, query) | Command::May(error, span, query) => {
            out.extend_from_slice(if matches!(command, Command::Must(..)) { b"must " } else { b"may " });
            put_number(out, *error);
            out.push(b' ');
            put_count(out, u64::from(*span));
            out.push(b' ');
            put_query(out, query);
        }
        Command::Index(class, attribute, width) => {
            put_words(out, &[b"index", class.text(), attribute.text(), b""]);
            put_number(out, *width);
        }
        Command::Range(span, class, attribute, least, greatest) => {
            out.extend_from_slice(b"range ");
            put_count(out, u64::from(*span));
            out.push(b' ');
            put_words(out, &[class.text(), attribute.text(), b""]);
            put_number(out, *least);
            out.push(b' ');
            put_number(out, *greatest);
        }
    }
}

fn main() {
    let mut input = Vec::new();
    std::io::stdin().read_to_end(&mut input).unwrap();
    let lines = || input.split(|b| *b == b'\n').filter(|line| !line.is_empty());
    let mut tokens = Vec::new();

    let begun = Instant::now();
    let mut read_lines = 0;
    for line in lines() {
        read_lines += usize::from(read(line, &mut tokens).is_ok());
    }
    let reading = begun.elapsed().as_nanos();

    let begun = Instant::now();
    let mut text = Vec::new();
    let (mut bytes, mut sum) = (0, 0u64);
    for line in lines() {
        if let Ok(command) = read(line, &mut tokens) {
            text.clear();
            put_command(&mut text, &command);
            bytes += text.len();
            sum = text.iter().fold(sum, |sum, byte| sum.wrapping_mul(31).wrapping_add(u64::from(*byte)));
        }
    }
    let both = begun.elapsed().as_nanos();
    println!("{read_lines} lines read, {bytes} bytes printed, sum {sum}");
    eprintln!("read {reading}");
    eprintln!("both {both}");
}
