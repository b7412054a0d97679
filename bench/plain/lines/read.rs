// Lines to commands.
use crate::tokens::{Key, Kind, Token, cut};
use crate::{LAST_TICK, LINE_LIMIT, Refusal};

const WORD_LIMIT: usize = 32;
const LEGS: usize = 8;
const ATTRIBUTES: usize = 16;
const CAPACITY: u32 = 100_000;
const MOST_VALUE: i64 = 1_000_000_000_000;
const MOST_SLOPE: i64 = 1_000_000;

#[derive(Clone, Copy, PartialEq)]
pub enum AttrKind {
    Num,
    Text,
    Dyn,
}

impl AttrKind {
    pub fn word(self) -> &'static str {
        match self {
            AttrKind::Num => "num",
            AttrKind::Text => "text",
            AttrKind::Dyn => "dyn",
        }
    }
}

/// Slopes with their ticks, and the last slope.
#[derive(Clone, Default)]
pub struct Legs {
    pub firsts: Vec<(i64, u32)>,
    pub last: i64,
}

pub enum Given<'a> {
    Num(i64),
    Text(&'a [u8]),
    Rate(Legs),
    Both(i64, Legs),
}

pub struct Set<'a> {
    pub name: &'a [u8],
    pub given: Given<'a>,
}

#[derive(Default)]
pub struct Place {
    pub at: Option<(i64, i64)>,
    pub moving: Option<(Legs, Legs)>,
}

pub enum Command<'a> {
    Nothing,
    Class { name: &'a [u8], capacity: u32, point: bool, attrs: Vec<(&'a [u8], AttrKind)> },
    Insert { class: &'a [u8], name: &'a [u8], place: Place, sets: Vec<Set<'a>> },
    Update { name: &'a [u8], place: Place, sets: Vec<Set<'a>> },
    Remove { name: &'a [u8] },
    Tick { ticks: u32 },
}

#[derive(Default)]
pub struct Reader {
    tokens: Vec<Token>,
}

impl Reader {
    pub fn read<'a>(&mut self, line: &'a [u8]) -> Result<Command<'a>, Refusal> {
        if line.len() > LINE_LIMIT {
            return Err(Refusal::LineTooLong);
        }
        // All bytes are looked at, which takes many at once.
        if line.iter().fold(false, |other, byte| other | !matches!(byte, b'\t' | b' '..=b'~')) {
            return Err(Refusal::NotAscii);
        }
        if line.iter().find(|byte| !matches!(byte, b' ' | b'\t')) == Some(&b'#') {
            return Ok(Command::Nothing);
        }
        cut(line, &mut self.tokens)?;
        let mut parser = Parser { line, tokens: &self.tokens, fit: true, small: true };
        let command = parser.command().ok_or(Refusal::BadSyntax)?;
        if !parser.tokens.is_empty() {
            return Err(Refusal::BadSyntax);
        }
        if !parser.fit {
            return Err(Refusal::NumberRange);
        }
        if !parser.small {
            return Err(Refusal::TooLarge);
        }
        Ok(command)
    }
}

/// The tokens that are left, whether each number is in its range, and whether each size is within its limit. A reader
/// answers nothing where its part isn't there.
struct Parser<'a, 't> {
    line: &'a [u8],
    tokens: &'t [Token],
    fit: bool,
    small: bool,
}

/// A number without its sign, in thousandths, of at most ten digits and three decimals.
fn thousandths(digits: &[u8]) -> Option<i64> {
    let (mut number, mut whole) = (0, None);
    for (place, byte) in digits.iter().enumerate() {
        match byte {
            b'.' => whole = Some(place),
            _ if place > 13 => return None,
            _ => number = number * 10 + i64::from(byte - b'0'),
        }
    }
    let whole = whole.unwrap_or(digits.len());
    let decimals = (digits.len() - whole).saturating_sub(1);
    (whole <= 10 && decimals <= 3).then(|| number * [1000, 100, 10, 1][decimals])
}

impl<'a> Parser<'a, '_> {
    fn is(&self, kind: Kind) -> bool {
        self.tokens.first().is_some_and(|token| token.kind == kind)
    }

    fn next(&mut self) -> Option<(Kind, &'a [u8])> {
        let (token, rest) = self.tokens.split_first()?;
        self.tokens = rest;
        Some((token.kind, &self.line[token.from.into()..token.to.into()]))
    }

    /// Takes a token of this kind if it comes next.
    fn has(&mut self, kind: Kind) -> bool {
        let is = self.is(kind);
        self.tokens = &self.tokens[usize::from(is)..];
        is
    }

    fn sign(&mut self, sign: u8) -> Option<()> {
        self.has(Kind::Sign(sign)).then_some(())
    }

    fn name(&mut self) -> Option<&'a [u8]> {
        let (Kind::Name, name) = self.next()? else { return None };
        self.small &= name.len() <= WORD_LIMIT;
        Some(name)
    }

    fn text(&mut self) -> Option<&'a [u8]> {
        let (Kind::Text, text) = self.next()? else { return None };
        self.small &= text.len() - 2 <= WORD_LIMIT;
        Some(&text[1..text.len() - 1])
    }

    fn whole(&mut self, most: u32) -> Option<u32> {
        let (Kind::Number, digits) = self.next()? else { return None };
        let number = digits.iter().try_fold(0u64, |number, byte| {
            let digit = byte.is_ascii_digit().then(|| u64::from(byte - b'0'))?;
            Some((number * 10 + digit).min(u64::from(u32::MAX)))
        });
        let found = number.filter(|number| (1..=u64::from(most)).contains(number));
        self.fit &= found.is_some();
        Some(found.unwrap_or(0) as u32)
    }

    fn number(&mut self, most: i64) -> Option<i64> {
        let minus = self.has(Kind::Sign(b'-'));
        let (Kind::Number, digits) = self.next()? else { return None };
        let found = thousandths(digits).filter(|size| *size <= most);
        self.fit &= found.is_some();
        let size = found.unwrap_or(0);
        Some(if minus { -size } else { size })
    }

    fn pair(&mut self, most: i64) -> Option<(i64, i64)> {
        self.sign(b'(')?;
        let x = self.number(most)?;
        self.sign(b',')?;
        let y = self.number(most)?;
        self.sign(b')')?;
        Some((x, y))
    }

    fn legs(&mut self) -> Option<Legs> {
        let mut firsts = Vec::new();
        while self.has(Kind::Sign(b'[')) {
            let slope = self.number(MOST_SLOPE)?;
            self.sign(b',')?;
            firsts.push((slope, self.whole(LAST_TICK)?));
            self.sign(b']')?;
        }
        self.small &= firsts.len() < LEGS;
        Some(Legs { firsts, last: self.number(MOST_SLOPE)? })
    }

    fn moves(&mut self) -> Option<(Legs, Legs)> {
        let (mut x, mut y) = (Legs::default(), Legs::default());
        while self.has(Kind::Sign(b'[')) {
            let pair = self.pair(MOST_SLOPE)?;
            self.sign(b',')?;
            let ticks = self.whole(LAST_TICK)?;
            self.sign(b']')?;
            x.firsts.push((pair.0, ticks));
            y.firsts.push((pair.1, ticks));
        }
        self.small &= x.firsts.len() < LEGS;
        (x.last, y.last) = self.pair(MOST_SLOPE)?;
        Some((x, y))
    }

    fn place(&mut self) -> Option<Place> {
        let mut place = Place::default();
        if self.has(Kind::Key(Key::At)) {
            place.at = Some(self.pair(MOST_VALUE)?);
        }
        if self.has(Kind::Key(Key::Move)) {
            place.moving = Some(self.moves()?);
        }
        Some(place)
    }

    fn given(&mut self) -> Option<Given<'a>> {
        if self.has(Kind::Key(Key::Rate)) {
            return Some(Given::Rate(self.legs()?));
        }
        self.sign(b'=')?;
        if self.is(Kind::Text) {
            return Some(Given::Text(self.text()?));
        }
        let value = self.number(MOST_VALUE)?;
        if self.has(Kind::Key(Key::Rate)) {
            return Some(Given::Both(value, self.legs()?));
        }
        Some(Given::Num(value))
    }

    fn sets(&mut self) -> Option<Vec<Set<'a>>> {
        let mut sets = Vec::new();
        while self.is(Kind::Name) {
            let name = self.name()?;
            sets.push(Set { name, given: self.given()? });
        }
        Some(sets)
    }

    fn attrs(&mut self) -> Option<Vec<(&'a [u8], AttrKind)>> {
        let mut attrs = Vec::new();
        if !self.has(Kind::Sign(b'(')) {
            return Some(attrs);
        }
        loop {
            let name = self.name()?;
            let kind = match self.next()?.0 {
                Kind::Key(Key::Num) => AttrKind::Num,
                Kind::Key(Key::Text) => AttrKind::Text,
                Kind::Key(Key::Dyn) => AttrKind::Dyn,
                _ => return None,
            };
            attrs.push((name, kind));
            if !self.has(Kind::Sign(b',')) {
                break;
            }
        }
        self.sign(b')')?;
        self.small &= attrs.len() <= ATTRIBUTES;
        Some(attrs)
    }

    fn command(&mut self) -> Option<Command<'a>> {
        let Some((kind, word)) = self.next() else { return Some(Command::Nothing) };
        Some(match kind {
            Kind::Key(Key::Class) => Command::Class {
                name: self.name()?,
                capacity: self.whole(CAPACITY)?,
                point: self.has(Kind::Key(Key::Point)),
                attrs: self.attrs()?,
            },
            Kind::Key(Key::Insert) => {
                Command::Insert { class: self.name()?, name: self.name()?, place: self.place()?, sets: self.sets()? }
            }
            Kind::Key(Key::Update) => Command::Update { name: self.name()?, place: self.place()?, sets: self.sets()? },
            Kind::Key(Key::Remove) => Command::Remove { name: self.name()? },
            Kind::Key(Key::Tick) => Command::Tick { ticks: self.whole(LAST_TICK)? },
            Kind::Key(
                Key::Region | Key::Ask | Key::Watch | Key::Keep | Key::Show | Key::Drop | Key::List | Key::Save
                | Key::Import | Key::Export | Key::Quit,
            ) => unimplemented!("a command that isn't measured"),
            Kind::Name if matches!(word, b"nearest" | b"must" | b"may" | b"index" | b"range") => {
                unimplemented!("a command that isn't measured")
            }
            _ => return None,
        })
    }
}
