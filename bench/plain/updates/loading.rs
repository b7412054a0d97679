// The text of a session, whose commands are carried out as they are read, without replies.
use crate::Session;
use crate::grammar::{self, Command};

/// The most bytes of a line of a text.
const LINE: usize = 16_384;

/// What the second line of a text says of its commands: how many they are, and by how many ticks they move the clock.
fn counts(line: &[u8]) -> Option<(u64, u64)> {
    let (entries, clock) = str::from_utf8(line).ok()?.strip_prefix("entries ")?.split_once(" clock ")?;
    Some((entries.parse().ok()?, clock.parse().ok()?))
}

/// The session of a text, or the number of its first faulty line.
pub fn load(text: &[u8]) -> Result<Session, usize> {
    let mut lines = (1..).zip(text.split(|byte| *byte == b'\n'));
    let mut next = |most: usize| lines.next().ok_or(most);
    if next(1)?.1 != b"domino-session 2" {
        return Err(1);
    }
    let (entries, clock) = counts(next(2)?.1).ok_or(2_usize)?;
    let mut session = Session::default();
    let (mut tokens, mut last) = (Vec::new(), 2);
    for _ in 0..entries {
        let (number, line) = next(last + 1)?;
        last = number;
        let command = grammar::read_to(line, &mut tokens, LINE).map_err(|_| number)?;
        session.enter(command).map_err(|_| number)?;
    }
    let ends = next(last + 1)?.1 == b"end" && next(last + 2)?.1.is_empty();
    if ends && u64::from(session.clock()) == clock { Ok(session) } else { Err(last + 1) }
}

impl Session {
    /// A command of a text: its rows are renewed, and nothing is said.
    fn enter(&mut self, command: Command) -> Result<(), ()> {
        match command {
            Command::Watch(name, span, ref query) | Command::Keep(name, span, ref query) => {
                let kept = matches!(command, Command::Keep(..));
                let watch = self.watch(name, span, query, kept).map_err(drop)?;
                self.watches.push(watch);
            }
            Command::Tick(_) => {
                self.store.apply(command).map_err(drop)?;
                self.watches.iter_mut().for_each(|watch| watch.advance(self.store.history.clock));
            }
            Command::Remove(_) if self.keeps_parts() => return Err(()),
            _ => {
                let Some(written) = self.store.apply(command).map_err(drop)? else { return Ok(()) };
                self.watches.iter_mut().for_each(|watch| watch.renew(written, &self.store, &mut self.free));
            }
        }
        Ok(())
    }

    fn clock(&self) -> u32 {
        self.store.history.clock
    }
}
