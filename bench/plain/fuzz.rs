// Hostile lines, the inputs of `fuzz`: each session is a function of its seed. About half of its lines are right
// commands, so that there is something to ask of, and each tenth of the others has one kind of fault.
// `fuzz SEED COUNT BUILT near` has spans that can be judged tick by tick, and `far` has any; BUILT is ask, live, files
// or all, and tells which commands are among the right ones. With `ask` there are no others among the hostile ones.
#[allow(dead_code)]
#[path = "grammar.rs"]
mod grammar;
#[allow(dead_code)]
#[path = "session_lines.rs"]
mod lines;

use grammar::{Command, Formula, Query};
use lines::{CLASSES, Draw, Line, ODD, OPS, words};
use std::io::{self, Write};

const LIMIT: usize = 4096;
/// The greatest spans, by the number of variables, of a query that is judged once, and of one that each write judges anew,
/// where all are near.
const NEAR_ASK: [u32; 4] = [1_000, 100, 40, 20];
const NEAR_WATCH: [u32; 4] = [100, 40, 10, 5];
/// Greater ones are refused.
const LONGEST: u32 = 100_000_000;
/// A span of more than two variables that doesn't take long: a circle of three is judged at each tick.
const MANY_BINDINGS: u32 = 10_000;
/// Spans of assignments that don't take long: one in another works out a formula for each pair of ticks.
const ASSIGNED: u32 = 1_000;
const TWICE_ASSIGNED: u32 = 60;
#[rustfmt::skip]
const NUMBERS: [&str; 56] = [
    "0", "1", "2", "3", "4", "7", "8", "16", "17", "32", "33", "63", "64", "65", "100", "101", "256", "257", "999", "1000",
    "1000.001", "999.999", "1001", "1023", "1024", "1025", "10000", "10001", "100000", "100001", "1000000", "1000001",
    "100000000", "100000001", "999999999", "1000000000", "1000000001", "1000000000.000", "1000000000.001",
    "999999999.999", "0.001", "0.0001", "0.000", "00000000000", "0000000001", "9999999999", "9999999999.999", "65535", "65536",
    "2147483648", "4294967295", "4294967296", "9223372036854775808", "18446744073709551616",
    "340282366920938463463374607431768211456", "1.0",
];

#[derive(Clone, Copy, PartialEq, PartialOrd)]
enum Built {
    Ask,
    Live,
    Files,
    Nearest,
    Blurred,
    All,
}

struct Maker {
    draw: Draw,
    built: Built,
    near: bool,
}

/// A variable of a query: its name and its class by number.
type Variable = (&'static str, usize);

impl Maker {
    fn one_of(&mut self, items: &[&str]) -> String {
        self.draw.one_of(items).to_string()
    }

    fn words(&mut self, items: &[&str]) -> Line {
        words(self.draw.one_of(items))
    }

    fn span(&mut self) -> String {
        let spans: &[&str] = if self.near || self.draw.percent(70) {
            &["0", "1", "2", "5", "10", "20", "20", "30", "40"]
        } else {
            &["99", "1000", "10000", "100000", "1000000", "100000000"]
        };
        self.one_of(spans)
    }

    // right commands

    fn setup(&mut self) -> Vec<Line> {
        let classes = CLASSES.iter().map(|(name, rest, _)| words(&format!("class {name} {rest}")));
        let mut all: Vec<Line> = classes.collect();
        for region in ["r0 ( 0 , 0 ) ( 5 , 0 ) ( 5 , 5 ) ( 0 , 5 )", "r1 ( - 9 , 3 ) ( - 2 , - 8 ) ( 7 , 1 )"] {
            all.push(words(&format!("region {region}")));
        }
        all
    }

    fn insert(&mut self) -> Line {
        let object = lines::object(&mut self.draw);
        let class = lines::class_of(&object);
        let mut line = words(&format!("insert {} {object}", CLASSES[class].0));
        line.extend(lines::settings(&mut self.draw, class));
        line
    }

    fn update(&mut self) -> Line {
        let object = lines::object(&mut self.draw);
        let mut line = words(&format!("update {object}"));
        line.extend(lines::settings(&mut self.draw, lines::class_of(&object)));
        line
    }

    fn tick(&mut self) -> Line {
        words(&format!("tick {}", 1 + self.draw.below(6)))
    }

    fn variables(&mut self, most: usize) -> Vec<Variable> {
        let count = [1, 1, 1, 1, 1, 1, 2, 2, 3, 4][self.draw.below(10)].min(most);
        ["o", "n", "m", "k"][..count].iter().map(|name| (*name, [0, 0, 0, 1, 2, 3][self.draw.below(6)])).collect()
    }

    /// A query over at most so many variables.
    fn query(&mut self, most: usize) -> Line {
        let variables = self.variables(most);
        let targets = 1 + self.draw.below(variables.len());
        let mut line = words("RETRIEVE");
        for (i, (name, _)) in variables[..targets].iter().enumerate() {
            line.extend(words(if i == 0 { "" } else { "," }).into_iter().filter(|word| !word.is_empty()));
            line.push(name.to_string());
        }
        line.extend(words("FROM"));
        for (i, (name, class)) in variables.iter().enumerate() {
            let comma = if i == 0 { "" } else { ", " };
            line.extend(words(&format!("{comma}{} {name}", CLASSES[*class].0)));
        }
        line.extend(words("WHERE"));
        let size = [0, 0, 1, 2, 3, 4, 6][self.draw.below(7)];
        line.extend(self.formula(&variables, size, 0));
        line
    }

    fn formula(&mut self, variables: &[Variable], size: usize, nested: usize) -> Line {
        if size == 0 {
            return self.atom(variables, nested);
        }
        let bound = self.one_of(&["0", "1", "2", "3", "5", "10", "1000000000"]);
        let mut line = match self.draw.below(8) {
            0 | 1 => self.words(&["NOT", "NEXTTIME", "EVENTUALLY", "ALWAYS"]),
            2 => words(&format!(
                "{} {bound}",
                self.draw.one_of(&["EVENTUALLY_WITHIN", "EVENTUALLY_AFTER", "ALWAYS_FOR"])
            )),
            3 if nested < 2 => {
                let term = self.term(variables, nested).join(" ");
                let mut line = words(&format!("[ v{nested} <- {term} ]"));
                line.extend(self.formula(variables, size - 1, nested + 1));
                return line;
            }
            _ => {
                let left = self.draw.below(size);
                let joint = self.one_of(&["AND", "AND", "OR", "OR", "UNTIL", "UNTIL_WITHIN", "UNTIL_AFTER"]);
                let bound = if joint.starts_with("UNTIL_") { format!(" {bound}") } else { String::new() };
                let mut line = words("(");
                line.extend(self.formula(variables, left, nested));
                line.extend(words(&format!("{joint}{bound}")));
                line.extend(self.formula(variables, size - 1 - left, nested));
                line.extend(words(")"));
                return line;
            }
        };
        line.extend(self.formula(variables, size - 1, nested));
        line
    }

    fn atom(&mut self, variables: &[Variable], nested: usize) -> Line {
        let points: Vec<&str> = variables.iter().filter(|(_, class)| *class < 2).map(|(name, _)| *name).collect();
        let op = self.one_of(&OPS);
        match self.draw.below(10) {
            0..3 if !points.is_empty() => {
                let word = self.one_of(&["INSIDE", "INSIDE", "OUTSIDE"]);
                words(&format!("{word} ( {} , r{} )", self.draw.one_of(&points), self.draw.below(3)))
            }
            3 | 4 if !points.is_empty() => {
                let (a, b) = (self.one_of(&points), self.one_of(&points));
                words(&format!("DIST ( {a} , {b} ) {op} {}", self.draw.one_of(&["0", "3", "5", "- 1", "100"])))
            }
            5 if !points.is_empty() => {
                let names: Line = (0..1 + self.draw.below(4)).map(|_| self.one_of(&points)).collect();
                let radius = self.one_of(&["0", "1", "2.5", "5", "100", "1000"]);
                words(&format!("WITHIN_SPHERE ( {radius} , {} )", names.join(" , ")))
            }
            6 => self.words(&[
                "TRUE",
                "FALSE",
                "TIME >= 5",
                "\"a\" = \"a\"",
                "1000 * TIME + 1 > 0",
                "1001 * TIME < 1000000",
            ]),
            7 => match variables.iter().find(|(_, class)| *class == 0) {
                Some((name, _)) => words(&format!("{name} . plate {} \"\"", self.draw.one_of(&["=", "!="]))),
                None => words("TIME <= 9"),
            },
            _ => {
                let mut line = self.term(variables, nested);
                line.push(op);
                line.extend(self.term(variables, nested));
                line
            }
        }
    }

    fn term(&mut self, variables: &[Variable], nested: usize) -> Line {
        let mut line = self.factor(variables, nested);
        while self.draw.percent(25) {
            line.extend(self.words(&["+", "-"]));
            line.extend(self.factor(variables, nested));
        }
        line
    }

    fn factor(&mut self, variables: &[Variable], nested: usize) -> Line {
        let (name, class) = variables[self.draw.below(variables.len())];
        let number = self.draw.below(13);
        match self.draw.below(6) {
            0 => words(&number.to_string()),
            1 => words("TIME"),
            2 if nested > 0 => words(&format!("v{}", self.draw.below(nested))),
            3 if class != 3 => {
                let attribute = if class == 2 { "fuel" } else { "x" };
                let part = self.one_of(&["value", "updatetime", "function"]);
                words(&format!("{name} . {attribute} . {part}"))
            }
            sort => {
                let attributes = [&["x", "y", "fuel", "load"][..], &["x", "y"], &["fuel"], &["x", "load"]][class];
                let times = if sort == 4 { format!("{} * ", number % 4) } else { String::new() };
                words(&format!("{times}{name} . {}", self.draw.one_of(attributes)))
            }
        }
    }

    fn ask(&mut self) -> Line {
        let mut line = words(&format!("ask {}", self.span()));
        line.extend(self.query(4));
        line
    }

    /// A `watch` or a `keep`.
    fn register(&mut self) -> Line {
        let word = self.one_of(&["watch", "keep"]);
        let mut line = words(&format!("{word} w{} {}", self.draw.below(4), self.span()));
        let most = if self.draw.percent(25) { 2 } else { 1 };
        line.extend(self.query(most));
        line
    }

    fn on_registered(&mut self) -> Line {
        let word = self.one_of(&["show", "show", "show", "drop"]);
        words(&format!("{word} w{}", self.draw.below(4)))
    }

    fn on_files(&mut self) -> Line {
        let class = self.one_of(&["car", "car", "car", "post", "tank"]);
        match self.draw.below(4) {
            0 => words("save \"s1\""),
            1 => words(&format!("export {class} \"e{}\"", self.draw.below(2))),
            _ => {
                let file =
                    self.one_of(&["cars", "rates", "quoted", "names", "tanks", "moved", "empty", "none", "e0", "e1"]);
                words(&format!("import {class} \"{file}\""))
            }
        }
    }

    fn nearest(&mut self) -> Line {
        let span = self.span();
        let object = self.one_of(&["c0", "c1", "c2", "p1"]);
        words(&format!("nearest {span} {} {object} car", 1 + self.draw.below(4)))
    }

    fn on_all(&mut self) -> Line {
        let span = self.span();
        match self.draw.below(3) {
            0 => words(&format!("index car {} 2.5", self.draw.one_of(&["x", "fuel"]))),
            1 => words(&format!("range {span} car {} - 3 5", self.draw.one_of(&["x", "fuel"]))),
            _ => self.blurred(),
        }
    }

    fn blurred(&mut self) -> Line {
        let span = self.span();
        let word = self.one_of(&["must", "may"]);
        let mut line = words(&format!("{word} 0.5 {span}"));
        line.extend(self.query(2));
        line
    }

    fn right(&mut self) -> Line {
        match self.draw.below(100) {
            0..22 => self.insert(),
            22..42 => self.update(),
            42..47 => words(&format!("remove {}", lines::object(&mut self.draw))),
            47..55 => self.tick(),
            55..72 => self.ask(),
            72..80 if self.built >= Built::Live => self.register(),
            80..86 if self.built >= Built::Live => self.on_registered(),
            86..88 => lines::region(&mut self.draw, 60),
            88 => lines::class(&mut self.draw),
            89 if self.built >= Built::Live => words("list"),
            90 => words("# comment ?"),
            91..96 if self.built >= Built::Files => self.on_files(),
            96..98 if self.built >= Built::Nearest => self.nearest(),
            98..100 if self.built == Built::All => self.on_all(),
            98..100 if self.built == Built::Blurred => self.blurred(),
            _ => self.ask(),
        }
    }

    // hostile lines

    fn token(&mut self) -> String {
        match self.draw.below(6) {
            0 => self.one_of(&grammar::WORDS),
            1 => self.one_of(&["(", ")", "[", "]", ",", ".", "+", "-", "*", "=", "!=", "<=", ">=", "<", ">", "<-"]),
            2 => self
                .one_of(&["car", "post", "o", "n", "x", "y", "fuel", "plate", "c0", "p1", "w0", "r0", "v0", "nearest"]),
            3 => self.one_of(&NUMBERS),
            4 => self.one_of(&["\"\"", "\"a\"", "\"AB 12\"", "\"s1\"", "\"cars\""]),
            _ => self.one_of(&ODD),
        }
    }

    /// Tokens of the grammar in any order, behind the first word of a command more often than not.
    fn any_tokens(&mut self) -> Line {
        let mut line = if self.draw.percent(70) { vec![self.one_of(&grammar::WORDS[25..41])] } else { Line::new() };
        for _ in 0..self.draw.below(24) {
            line.push(self.token());
        }
        line
    }

    fn with_numbers(&mut self, mut line: Line) -> Line {
        for word in &mut line {
            if word.as_bytes()[0].is_ascii_digit() && self.draw.percent(40) {
                *word = self.one_of(&NUMBERS);
            }
        }
        line
    }

    fn long_word(&mut self, line: &mut Line) {
        let size = [31, 32, 33, 34, 64, 255, 256, 257, 4080][self.draw.below(9)];
        let at = self.draw.below(line.len());
        line[at] = match self.draw.below(3) {
            0 => format!("\"{}\"", "t".repeat(size)),
            1 => "9".repeat(size),
            _ => "n".repeat(size),
        };
    }

    /// A right command that is deep, or that has many parts: as many as are allowed, some more, or very many.
    fn deep(&mut self) -> Line {
        let near = |draw: &mut Draw, limit: usize| match draw.below(4) {
            0 => limit,
            1 => limit + 1,
            2 => limit - 1,
            _ => limit * (2 + draw.below(9)),
        };
        let draw = &mut self.draw;
        let ask = |formula: String| words(&format!("ask 3 RETRIEVE o FROM car o WHERE {formula}"));
        match draw.below(14) {
            0 => {
                let (open, shut) = (near(draw, 128), near(draw, 128));
                let open = if draw.percent(70) { shut } else { open };
                ask(format!("{}TRUE{}", "( ".repeat(open), " )".repeat(shut)))
            }
            1 => ask(format!("{}TRUE", "( ".repeat(near(draw, 1800)))),
            2 => ask(format!("{}TRUE", "NOT ".repeat(near(draw, 31)))),
            3 => ask(format!("{}TRUE", "( NOT ".repeat(near(draw, 200)))),
            4 => ask(vec!["TRUE"; near(draw, 128)].join(" AND ")),
            5 => ask(vec!["TRUE"; near(draw, 32)].join(" UNTIL ")),
            6 => ask(format!("{} > 0", vec!["TIME"; near(draw, 16)].join(" + "))),
            7 => {
                let count = near(draw, 2);
                ask(format!("{}TRUE", (0..count).map(|i| format!("[ v{i} <- 1 ] ")).collect::<String>()))
            }
            8 => ask(format!("WITHIN_SPHERE ( 1{} )", " , o".repeat(near(draw, 4)))),
            9 => {
                let count = near(draw, 4);
                let from: Vec<String> = (0..count).map(|i| format!("post o{i}")).collect();
                words(&format!("ask 1 RETRIEVE o0 FROM {} WHERE TRUE", from.join(" , ")))
            }
            10 => words(&format!("update c0 move {}( 0 , 0 )", "[ ( 1 , - 1 ) , 2 ] ".repeat(near(draw, 7)))),
            11 => words(&format!("update c0 fuel rate {}1", "[ 1 , 2 ] ".repeat(near(draw, 7)))),
            12 => {
                let count = near(draw, 16);
                let attributes: Vec<String> = (0..count).map(|i| format!("a{i} num")).collect();
                words(&format!("class k{} 3 ( {} )", draw.below(30), attributes.join(" , ")))
            }
            _ => {
                let count = near(draw, 64);
                let points: Vec<String> = (0..count).map(|i| format!("( {i} , {} )", i * i)).collect();
                words(&format!("region r{} {}", draw.below(30), points.join(" ")))
            }
        }
    }

    fn bytes(&mut self) -> Vec<u8> {
        let size = match self.draw.below(40) {
            0 => [LIMIT - 1, LIMIT, LIMIT + 1, 16_384, 70_000][self.draw.below(5)],
            _ => self.draw.below(100),
        };
        let low = self.draw.percent(50);
        (0..size).map(|_| self.draw.below(if low { 128 } else { 256 }) as u8).collect()
    }

    fn text(&mut self, line: &[String]) -> Vec<u8> {
        lines::text(&mut self.draw, line)
    }

    /// A right command as a text with some of its bytes changed, left out or added, or cut off.
    fn with_byte(&mut self) -> Vec<u8> {
        let line = self.right();
        let mut text = self.text(&line);
        if text.is_empty() {
            return text;
        }
        for _ in 0..1 + self.draw.below(2) {
            let at = self.draw.below(text.len());
            let byte = if self.draw.percent(70) { 32 + self.draw.below(95) } else { self.draw.below(256) } as u8;
            match self.draw.below(6) {
                0 if text.len() > 1 => drop(text.remove(at)),
                1 => text.insert(at, byte),
                2 => text.truncate(at + 1),
                3 => text[at] ^= 1 << self.draw.below(8),
                _ => text[at] = byte,
            }
        }
        text
    }

    /// A command with spaces up to the greatest length, or one less or more.
    fn padded(&mut self) -> Vec<u8> {
        let line = self.right();
        let mut text = self.text(&line);
        let size = LIMIT - 1 + self.draw.below(3);
        let at = if self.draw.percent(50) { 0 } else { text.len() };
        let space = vec![b" \t"[self.draw.below(2)]; size.saturating_sub(text.len())];
        text.splice(at..at, space);
        text
    }

    fn hostile(&mut self) -> Vec<u8> {
        let mut line = match self.draw.below(10) {
            0 => return self.bytes(),
            1 if self.draw.percent(20) => return self.padded(),
            1..4 => return self.with_byte(),
            4 => self.deep(),
            5 => self.any_tokens(),
            6 => {
                let mut line = self.right();
                let joint = self.right();
                line.extend(joint);
                line
            }
            7 => {
                let line = self.right();
                self.with_numbers(line)
            }
            8 => {
                let mut line = self.right();
                self.long_word(&mut line);
                line
            }
            _ => {
                let mut line = self.right();
                lines::change(&mut self.draw, &mut line);
                line
            }
        };
        if self.draw.percent(10) {
            lines::change(&mut self.draw, &mut line);
        }
        self.text(&line)
    }

    /// Whether a line takes no longer than it may, and doesn't end the clock or the session too early.
    fn is_fit(&self, text: &[u8], late: bool) -> bool {
        let Ok(command) = grammar::read(text, &mut Vec::new()) else { return true };
        match &command {
            Command::Quit => false,
            Command::Tick(count) => late || *count <= 20,
            Command::Nothing | Command::Class(..) | Command::Region(..) => true,
            Command::Insert(..) | Command::Update(..) | Command::Remove(_) => true,
            Command::Ask(span, query) => self.is_quick(*span, query, NEAR_ASK),
            _ if self.built == Built::Ask => false,
            Command::Save(file) | Command::Import(_, file) | Command::Export(_, file) => is_file(file.text()),
            Command::Watch(_, span, query) | Command::Keep(_, span, query) => self.is_quick(*span, query, NEAR_WATCH),
            Command::Must(_, span, query) | Command::May(_, span, query) => self.is_quick(*span, query, NEAR_WATCH),
            Command::Nearest(span, ..) | Command::Range(span, ..) => !self.near || *span <= NEAR_ASK[0],
            _ => true,
        }
    }

    fn is_quick(&self, span: u32, query: &Query, near: [u32; 4]) -> bool {
        let Some(near) = near.get(query.from.len() - 1) else { return false };
        let assigned = match assignments(&query.formula) {
            0 => LONGEST,
            1 => ASSIGNED,
            _ => TWICE_ASSIGNED,
        };
        let far = if query.from.len() > 2 { assigned.min(MANY_BINDINGS) } else { assigned };
        let most = if self.near { assigned.min(*near) } else { far };
        span <= most || span > LONGEST
    }

    fn line(&mut self, late: bool) -> Vec<u8> {
        loop {
            let mut text = if self.draw.percent(50) {
                let line = self.right();
                self.text(&line)
            } else {
                self.hostile()
            };
            text.retain(|byte| *byte != b'\n');
            if self.is_fit(&text, late) {
                return text;
            }
        }
    }

    fn session(&mut self, count: usize) -> Vec<u8> {
        let mut all = Vec::new();
        for line in self.setup() {
            all.extend(self.text(&line));
            all.push(b'\n');
        }
        for i in 0..count {
            all.extend(self.line(i > count - count / 16));
            all.extend_from_slice(if self.draw.percent(5) { b"\r\n" } else { b"\n" });
        }
        if self.built >= Built::Live {
            let ends = ["list", "list\r", "list\r\r\n", "quit\nlist\n", "quit now\nlist\n"];
            all.extend_from_slice(self.draw.one_of(&ends).as_bytes());
        }
        all
    }
}

/// Whether a file may have the name: any other ends the session.
fn is_file(name: &[u8]) -> bool {
    !matches!(name, b"" | b"." | b"..") && !name.contains(&b'/')
}

/// The assignments on one way from the root.
fn assignments(formula: &Formula) -> usize {
    match formula {
        Formula::Unary(_, _, f) => assignments(f),
        Formula::And(f, g) | Formula::Or(f, g) | Formula::Until(_, _, f, g) => assignments(f).max(assignments(g)),
        Formula::Assign(_, _, f) => 1 + assignments(f),
        _ => 0,
    }
}

fn start(words: &[String]) -> io::Result<()> {
    let words: Vec<&str> = words.iter().map(String::as_str).collect();
    let [seed, count, built, reach @ ("near" | "far")] = words[..] else {
        return Err(io::Error::other("SEED COUNT ask|live|files|nearest|blurred|all near|far"));
    };
    let number = |word: &str| word.parse::<u64>().map_err(io::Error::other);
    let built = match built {
        "ask" => Built::Ask,
        "live" => Built::Live,
        "files" => Built::Files,
        "nearest" => Built::Nearest,
        "blurred" => Built::Blurred,
        _ => Built::All,
    };
    let mut maker = Maker { draw: Draw::new(number(seed)?), built, near: reach == "near" };
    let session = maker.session(number(count)? as usize);
    io::stdout().lock().write_all(&session)
}

fn main() -> io::Result<()> {
    let words: Vec<String> = std::env::args().skip(1).collect();
    // a line of opening brackets is as deep as it is long
    let deep = std::thread::Builder::new().stack_size(1 << 28).spawn(move || start(&words))?;
    deep.join().expect("the session is made")
}
