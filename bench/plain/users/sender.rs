// Who sends a line, and which kind of line it is by its first word.
use crate::grammar::WORDS;

const USER_BYTES: usize = 8;

/// Kinds of lines, by their first word.
#[derive(Clone, Copy, PartialEq)]
pub enum Kind {
    /// It is on what all users share.
    Data,
    /// It is on the user's own registered queries.
    Query,
    /// No user may give it.
    Barred,
    Other,
}

fn is_part(byte: &u8) -> bool {
    byte.is_ascii_alphanumeric() || *byte == b'_'
}

/// The word at the front, which a letter or `_` begins, and what stands after it.
fn front(text: &[u8]) -> (&[u8], &[u8]) {
    let size = match text.first() {
        Some(byte) if !byte.is_ascii_digit() => text.iter().take_while(|byte| is_part(byte)).count(),
        _ => 0,
    };
    text.split_at(size)
}

/// A user, and the line that this user sends.
pub fn sent(input: &[u8]) -> Option<(&[u8], &[u8])> {
    let (user, rest) = front(input);
    let reserved = WORDS.iter().any(|word| word.as_bytes() == user);
    let line = rest.strip_prefix(b" ")?;
    ((1..=USER_BYTES).contains(&user.len()) && !reserved).then_some((user, line))
}

/// The first token of a line where it is a word, else nothing.
pub fn first_word(line: &[u8]) -> &[u8] {
    let blanks = line.iter().take_while(|byte| matches!(byte, b' ' | b'\t')).count();
    front(&line[blanks..]).0
}

pub fn kind_of(word: &[u8]) -> Kind {
    match word {
        b"class" | b"region" | b"insert" | b"update" | b"remove" | b"tick" => Kind::Data,
        b"watch" | b"keep" | b"drop" => Kind::Query,
        b"save" | b"import" | b"export" | b"quit" => Kind::Barred,
        _ => Kind::Other,
    }
}
