// The tokens of a line.
use crate::Refusal;

/// The reserved words that these commands know, and the first words of all commands.
#[derive(Clone, Copy, Debug, PartialEq)]
pub enum Key {
    Class,
    Region,
    Insert,
    Update,
    Remove,
    Tick,
    Ask,
    Watch,
    Keep,
    Show,
    Drop,
    List,
    Save,
    Import,
    Export,
    Quit,
    Point,
    Num,
    Text,
    Dyn,
    At,
    Move,
    Rate,
    /// A word of queries.
    Other,
}

#[derive(Clone, Copy, Debug, PartialEq)]
pub enum Kind {
    Key(Key),
    Name,
    Number,
    Text,
    Sign(u8),
    /// `!=`, `<=`, `>=` or `<-`.
    Pair,
}

#[derive(Clone, Copy)]
pub struct Token {
    pub kind: Kind,
    pub from: u16,
    pub to: u16,
}

/// The reserved words by their first letters.
fn words(first: u8) -> &'static [(&'static [u8], Key)] {
    match first {
        b'a' => &[(b"at", Key::At), (b"ask", Key::Ask)],
        b'c' => &[(b"class", Key::Class)],
        b'd' => &[(b"dyn", Key::Dyn), (b"drop", Key::Drop)],
        b'e' => &[(b"export", Key::Export)],
        b'f' => &[(b"function", Key::Other)],
        b'i' => &[(b"insert", Key::Insert), (b"import", Key::Import)],
        b'k' => &[(b"keep", Key::Keep)],
        b'l' => &[(b"list", Key::List)],
        b'm' => &[(b"move", Key::Move)],
        b'n' => &[(b"num", Key::Num)],
        b'p' => &[(b"point", Key::Point)],
        b'q' => &[(b"quit", Key::Quit)],
        b'r' => &[(b"rate", Key::Rate), (b"remove", Key::Remove), (b"region", Key::Region)],
        b's' => &[(b"show", Key::Show), (b"save", Key::Save)],
        b't' => &[(b"tick", Key::Tick), (b"text", Key::Text)],
        b'u' => &[(b"update", Key::Update), (b"updatetime", Key::Other)],
        b'v' => &[(b"value", Key::Other)],
        b'w' => &[(b"watch", Key::Watch)],
        b'A' => &[(b"AND", Key::Other), (b"ALWAYS", Key::Other), (b"ALWAYS_FOR", Key::Other)],
        b'D' => &[(b"DIST", Key::Other)],
        b'E' => &[
            (b"EVENTUALLY", Key::Other),
            (b"EVENTUALLY_WITHIN", Key::Other),
            (b"EVENTUALLY_AFTER", Key::Other),
        ],
        b'F' => &[(b"FROM", Key::Other), (b"FALSE", Key::Other)],
        b'I' => &[(b"INSIDE", Key::Other)],
        b'N' => &[(b"NOT", Key::Other), (b"NEXTTIME", Key::Other)],
        b'O' => &[(b"OR", Key::Other), (b"OUTSIDE", Key::Other)],
        b'R' => &[(b"RETRIEVE", Key::Other)],
        b'T' => &[(b"TRUE", Key::Other), (b"TIME", Key::Other)],
        b'U' => &[(b"UNTIL", Key::Other), (b"UNTIL_WITHIN", Key::Other), (b"UNTIL_AFTER", Key::Other)],
        b'W' => &[(b"WHERE", Key::Other), (b"WITHIN_SPHERE", Key::Other)],
        _ => &[],
    }
}

const BLANK: u8 = 1;
const LETTER: u8 = 2;
const DIGIT: u8 = 4;
const QUOTE: u8 = 8;
const SIGN: u8 = 16;

/// What each byte may be.
const CLASSES: [u8; 256] = {
    let mut classes = [0; 256];
    let mut byte = 0;
    while byte < 256 {
        classes[byte] = match byte as u8 {
            b' ' | b'\t' => BLANK,
            b'a'..=b'z' | b'A'..=b'Z' | b'_' => LETTER,
            b'0'..=b'9' => DIGIT,
            b'"' => QUOTE,
            b'(' | b')' | b'[' | b']' | b',' | b'.' | b'+' | b'-' | b'*' | b'=' | b'!' | b'<' | b'>' => SIGN,
            _ => 0,
        };
        byte += 1;
    }
    classes
};

/// The place after the bytes of these classes from a place on.
fn behind(line: &[u8], from: usize, classes: u8) -> usize {
    let mut to = from;
    while to < line.len() && CLASSES[usize::from(line[to])] & classes != 0 {
        to += 1;
    }
    to
}

/// The kind of the token that begins at a place, and the place after it.
fn token(line: &[u8], from: usize) -> Option<(Kind, usize)> {
    let first = line[from];
    match CLASSES[usize::from(first)] {
        LETTER => {
            let to = behind(line, from + 1, LETTER | DIGIT);
            let key = words(first).iter().find(|(word, _)| *word == &line[from..to]);
            Some((key.map_or(Kind::Name, |(_, key)| Kind::Key(*key)), to))
        }
        DIGIT => {
            let to = behind(line, from + 1, DIGIT);
            if line.get(to) != Some(&b'.') {
                return Some((Kind::Number, to));
            }
            let decimals = behind(line, to + 1, DIGIT);
            Some((Kind::Number, if decimals > to + 1 { decimals } else { to }))
        }
        QUOTE => Some((Kind::Text, from + line[from + 1..].iter().position(|byte| *byte == b'"')? + 2)),
        SIGN => match (first, line.get(from + 1)) {
            (b'!' | b'<' | b'>', Some(b'=')) | (b'<', Some(b'-')) => Some((Kind::Pair, from + 2)),
            (b'!', _) => None,
            _ => Some((Kind::Sign(first), from + 1)),
        },
        _ => None,
    }
}

/// Puts the tokens of a line, of which no place is past a `u16`, in place of others.
pub fn cut(line: &[u8], tokens: &mut Vec<Token>) -> Result<(), Refusal> {
    tokens.clear();
    let mut from = behind(line, 0, BLANK);
    while from < line.len() {
        let (kind, to) = token(line, from).ok_or(Refusal::BadToken)?;
        tokens.push(Token { kind, from: from as u16, to: to as u16 });
        from = behind(line, to, BLANK);
    }
    Ok(())
}
