// Data and asks in plain Rust without proofs: the yardstick of `asks`. Objects are kept in flat lists and queries are
// judged by spans. Since an ask looks at ticks from now on, the present state of the objects is all that it reads.
#[path = "asks/answer.rs"]
mod answer;
#[path = "session/circle.rs"]
mod circle;
#[path = "asks/evaluate.rs"]
mod evaluate;
#[allow(dead_code)]
#[path = "grammar.rs"]
mod grammar;
#[allow(dead_code)]
#[path = "session/history.rs"]
mod history;
#[path = "asks/join.rs"]
mod join;
#[path = "asks/nearest.rs"]
mod nearest;
#[path = "session/resolve.rs"]
mod resolve;
#[path = "asks/spans.rs"]
mod spans;
#[path = "asks/store.rs"]
mod store;

use evaluate::Buffers;
use grammar::Command;
use history::Refusal;
use std::io::{self, Read, Write};
use store::Store;

const PIECE: usize = 1 << 16;

/// Answers a line. Whether it has a reply.
fn step(
    line: &[u8],
    store: &mut Store,
    tokens: &mut Vec<grammar::Token>,
    free: &mut Buffers,
    out: &mut Vec<u8>,
) -> Result<bool, Refusal> {
    match grammar::read(line, tokens)? {
        Command::Nothing => Ok(false),
        Command::Ask(span, query) => {
            let (query, faults) = resolve::resolve(&store.history, &query, span);
            resolve::first(faults)?;
            let now = store.history.clock;
            answer::put_answer(store, &query, (now, now + span), free, out);
            Ok(true)
        }
        Command::Nearest(span, k, to, class) => {
            nearest::put_nearest(store, (span, k), (&to, &class), out).map(|()| true)
        }
        command @ (Command::Class(..) | Command::Region(..) | Command::Tick(_)) => store.apply(command).map(|_| true),
        command @ (Command::Insert(..) | Command::Update(..) | Command::Remove(_)) => {
            store.apply(command).map(|_| true)
        }
        _ => Err(Refusal::BadSyntax),
    }
}

fn main() -> io::Result<()> {
    let mut input = Vec::new();
    io::stdin().lock().read_to_end(&mut input)?;
    let mut output = io::stdout().lock();
    let (mut store, mut free) = (Store::default(), Buffers::default());
    let (mut tokens, mut out) = (Vec::new(), Vec::new());
    for line in input.split_inclusive(|byte| *byte == b'\n') {
        let line = match line.strip_suffix(b"\n") {
            Some(line) => line.strip_suffix(b"\r").unwrap_or(line),
            None => line,
        };
        match step(line, &mut store, &mut tokens, &mut free, &mut out) {
            Ok(has_reply) => out.extend_from_slice(if has_reply { b"ok\n" } else { b"" }),
            Err(refusal) => writeln!(out, "refused {} {refusal:?}", refusal as u8)?,
        }
        if out.len() >= PIECE {
            output.write_all(&out)?;
            out.clear();
        }
    }
    output.write_all(&out)
}
