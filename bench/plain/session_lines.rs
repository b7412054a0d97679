// The inputs of `session` and `compare_session`, each line a function of the seed.
use std::io::{self, Write};

pub struct Draw(u64);

impl Draw {
    pub fn new(seed: u64) -> Draw {
        Draw(seed.wrapping_mul(0x9e37_79b9_7f4a_7c15))
    }

    pub fn below(&mut self, n: usize) -> usize {
        self.0 = self.0.wrapping_mul(6_364_136_223_846_793_005).wrapping_add(1_442_695_040_888_963_407);
        ((self.0 >> 33) % n as u64) as usize
    }

    pub fn percent(&mut self, n: usize) -> bool {
        self.below(100) < n
    }

    pub fn one_of<'a>(&mut self, items: &[&'a str]) -> &'a str {
        items[self.below(items.len())]
    }

    /// A number with at most three decimals, below `size` on both sides of 0.
    fn number(&mut self, size: usize) -> String {
        let sign = if self.percent(30) { "-" } else { "" };
        let whole = self.below(size);
        match self.below(4) {
            0 => format!("{sign}{whole}.{:03}", self.below(1000)),
            1 => format!("{sign}{whole}.{}", self.below(10)),
            _ => format!("{sign}{whole}"),
        }
    }

    fn pair(&mut self, size: usize) -> String {
        format!("({},{})", self.number(size), self.number(size))
    }
}

/// Two classes, a tenth of the lines (100,000 at most) inserts, and then updates, ticks, removals and inserts of
/// what was removed. Each line is accepted.
pub fn generate(seed: u64, count: u64) -> io::Result<()> {
    let mut out = io::BufWriter::new(io::stdout().lock());
    let mut draw = Draw::new(seed);
    let objects = (count / 10).clamp(1, 100_000) as usize;
    writeln!(out, "class car 100000 point (fuel dyn)")?;
    writeln!(out, "class depot 1000 point (label text,stock num)")?;
    for i in 0..objects {
        if i % 100 == 99 {
            let (at, stock) = (draw.pair(10_000), draw.number(1000));
            writeln!(out, "insert depot c{i} at {at} label = \"D{i}\" stock = {stock}")?;
        } else {
            let (at, moving, fuel) = (draw.pair(10_000), draw.pair(40), draw.number(100));
            writeln!(out, "insert car c{i} at {at} move {moving} fuel = {fuel} rate -0.{:03}", draw.below(1000))?;
        }
    }
    let mut removed: Vec<usize> = Vec::new();
    let mut is_removed = vec![false; objects];
    for _ in objects as u64 + 2..count {
        let i = draw.below(objects);
        let class = if i % 100 == 99 { "depot" } else { "car" };
        let kind = draw.below(100);
        if kind == 0 {
            writeln!(out, "tick {}", 1 + draw.below(5))?;
        } else if is_removed[i] || kind == 1 && !removed.is_empty() {
            let i = removed.swap_remove(draw.below(removed.len()));
            is_removed[i] = false;
            let class = if i % 100 == 99 { "depot" } else { "car" };
            writeln!(out, "insert {class} c{i} at {}", draw.pair(10_000))?;
        } else if kind == 2 {
            removed.push(i);
            is_removed[i] = true;
            writeln!(out, "remove c{i}")?;
        } else if class == "depot" {
            writeln!(out, "update c{i} stock = {}", draw.number(1000))?;
        } else if kind < 60 {
            writeln!(out, "update c{i} move {}", draw.pair(40))?;
        } else if kind < 80 {
            writeln!(out, "update c{i} at {} move {}", draw.pair(10_000), draw.pair(40))?;
        } else if kind < 90 {
            writeln!(out, "update c{i} fuel = {} rate -0.{:03}", draw.number(100), draw.below(1000))?;
        } else if kind < 95 {
            writeln!(out, "update c{i} fuel rate {}", draw.number(2))?;
        } else {
            let (first, last) = (draw.pair(40), draw.pair(40));
            writeln!(out, "update c{i} move [{first},{}] {last}", 1 + draw.below(100))?;
        }
    }
    out.flush()
}

pub const CLASSES: [(&str, &str, &[&str]); 5] = [
    ("car", "40 point ( fuel dyn , plate text , load num )", &["x", "y", "fuel", "plate", "load"]),
    ("post", "3 point", &["x", "y"]),
    ("tank", "9 ( fuel dyn , label text )", &["fuel", "label"]),
    ("box", "2 ( x num , y text , load num )", &["x", "y", "load"]),
    ("ship", "100000 point ( fuel dyn )", &["x", "y", "fuel"]),
];
const SPANS: [&str; 12] =
    ["0", "1", "5", "20", "100", "100", "100", "1000", "1000000", "100000000", "100000001", "1000000000"];
/// Spans of what is judged tick by tick.
const SHORT_SPANS: [&str; 8] = ["0", "1", "5", "20", "20", "100", "100000001", "1000000000"];
pub const OPS: [&str; 6] = ["<", "<=", "=", "!=", ">=", ">"];
#[rustfmt::skip]
pub const ODD: [&str; 48] = [
    "?", "!", "\"open", "\u{e9}", "\u{7f}", "\u{1}", "#", "(", ")", "[", "]", ",", ".", "-", "*", "<-", "!=",
    "name_of_33_letters_is_one_too_big", "name_of_32_letters_is_just_right", "\"text of 33 letters is one too lon\"",
    "\"text of 32 letters is just good.\"", "\"\"", "\"tab\there\"", "nosuch", "other", "x", "y", "fuel", "plate",
    "car", "a0", "0", "00", "007", "-0", "1.5", "0.0001", "1000000000", "1000000000.001", "00000000001", "1000000001",
    "99999999999999999999999", "1000.001", "100001", "rate", "at", "move", "TRUE",
];

/// The words of one line.
pub type Line = Vec<String>;

pub fn words(text: &str) -> Line {
    text.split(' ').map(str::to_string).collect()
}

pub fn value(draw: &mut Draw) -> Line {
    let size = [1_000_000_001, 12, 12, 12, 12, 200, 200, 200, 200, 200, 200, 200][draw.below(12)];
    signed(draw, size)
}

fn slope(draw: &mut Draw) -> Line {
    let size = if draw.percent(10) { 1_001 } else { 5 };
    signed(draw, size)
}

fn signed(draw: &mut Draw, size: usize) -> Line {
    let text = draw.number(size);
    match text.strip_prefix('-') {
        Some(digits) => words(&format!("- {digits}")),
        None => vec![text],
    }
}

fn pair(draw: &mut Draw, part: fn(&mut Draw) -> Line) -> Line {
    let mut line = words("(");
    line.extend(part(draw));
    line.extend(words(","));
    line.extend(part(draw));
    line.extend(words(")"));
    line
}

fn legs(draw: &mut Draw, last: fn(&mut Draw) -> Line) -> Line {
    let count = match draw.below(12) {
        0 => 7,
        1 => 8,
        2 => draw.below(7),
        3 | 4 => 1,
        _ => 0,
    };
    let mut line = Line::new();
    for _ in 0..count {
        line.extend(words("["));
        line.extend(last(draw));
        let length = if draw.percent(5) {
            draw.one_of(&["0", "1000000000", "1000000001", "1.0"]).to_string()
        } else {
            draw.below(20).to_string()
        };
        line.extend(words(&format!(", {length} ]")));
    }
    line.extend(last(draw));
    line
}

fn slopes(draw: &mut Draw) -> Line {
    pair(draw, slope)
}

pub fn object(draw: &mut Draw) -> String {
    // the letter suggests the class
    format!("{}{}", draw.one_of(&["c", "c", "p", "t", "b", "s"]), draw.below(8))
}

pub fn class_of(object: &str) -> usize {
    match object.as_bytes().first() {
        Some(b'p') => 1,
        Some(b't') => 2,
        Some(b'b') => 3,
        Some(b's') => 4,
        _ => 0,
    }
}

pub fn settings(draw: &mut Draw, class: usize) -> Line {
    let mut line = Line::new();
    let point = class != 2 && class != 3;
    if draw.percent(if point { 50 } else { 5 }) {
        line.extend(words("at"));
        line.extend(pair(draw, value));
    }
    if draw.percent(if point { 70 } else { 5 }) {
        line.extend(words("move"));
        line.extend(legs(draw, slopes));
    }
    for _ in 0..[0, 0, 0, 1, 1, 1, 1, 2, 2, 3][draw.below(10)] {
        let from = if draw.percent(4) { draw.below(5) } else { class };
        let name = draw.one_of(CLASSES[from].2);
        line.push(name.to_string());
        let form = match name {
            "plate" | "label" => 0,
            "load" => 1,
            "y" if class == 3 => 0,
            "x" if class == 3 => 1,
            _ => [1, 2, 2, 3, 3][draw.below(5)],
        };
        let form = if draw.percent(5) { draw.below(4) } else { form };
        match form {
            0 => {
                let text = draw.one_of(&["= \"\"", "= \"AB 12\"", "= \"it's\"", "= \"#\""]);
                line.extend(words("="));
                line.push(text[2..].to_string());
            }
            1 => {
                line.extend(words("="));
                line.extend(value(draw));
            }
            2 => {
                line.extend(words("="));
                line.extend(value(draw));
                line.extend(words("rate"));
                line.extend(legs(draw, slope));
            }
            _ => {
                line.extend(words("rate"));
                line.extend(legs(draw, slope));
            }
        }
    }
    line
}

fn question(draw: &mut Draw, class: usize) -> Line {
    let name = draw.one_of(CLASSES[class].2);
    let name = if matches!(name, "plate" | "label") && draw.percent(80) { "fuel" } else { name };
    let (target, variable, object) = match draw.below(30) {
        0 => ("n", "o", "o"),
        1 => ("o", "o", "n"),
        _ => ("o", "o", "o"),
    };
    let class = if draw.percent(4) { draw.one_of(&["k1", "nosuch", "box"]) } else { CLASSES[class].0 };
    let op = draw.one_of(&OPS);
    let mut line = words(&format!("RETRIEVE {target} FROM {class} {variable} WHERE"));
    let brackets = if draw.percent(10) { 1 + draw.below(3) } else { 0 };
    line.extend((0..brackets).map(|_| "(".to_string()));
    line.extend(words(&format!("{object} . {name} {op}")));
    line.extend(value(draw));
    line.extend((0..brackets).map(|_| ")".to_string()));
    line
}

fn formula(draw: &mut Draw, depth: usize) -> Line {
    if depth == 0 {
        return words(draw.one_of(&[
            "TRUE",
            "FALSE",
            "INSIDE ( o , r1 )",
            "OUTSIDE ( o , r1 )",
            "DIST ( o , n ) <= 3",
            "DIST ( o , n ) > - 1000000000.001",
            "WITHIN_SPHERE ( 1 , o , n )",
            "WITHIN_SPHERE ( 1000.001 , o )",
            "WITHIN_SPHERE ( 2 , o , n , o , n , o )",
            "TIME >= 5",
            "o . x . function >= 2 * s",
            "2.5 * o . x = 1",
            "1000001 * o . x = 1",
            "o . plate = \"a\"",
            "o . x . value - TIME + 1 < n . y",
            "v = v",
            "1 + 1 + 1 + 1 + 1 + 1 + 1 + 1 + 1 + 1 + 1 + 1 + 1 + 1 + 1 + 1 = TIME",
            "1 + 1 + 1 + 1 + 1 + 1 + 1 + 1 + 1 + 1 + 1 + 1 + 1 + 1 + 1 + 1 + 1 = TIME",
        ]));
    }
    let mut line = Line::new();
    match draw.below(6) {
        0 => line.extend(words(draw.one_of(&[
            "NOT",
            "NEXTTIME",
            "EVENTUALLY",
            "ALWAYS",
            "EVENTUALLY_WITHIN 5",
            "EVENTUALLY_AFTER 1000000001",
            "ALWAYS_FOR 2.0",
            "EVENTUALLY_WITHIN",
            "NOT NOT NOT NOT NOT NOT NOT NOT NOT NOT NOT NOT NOT NOT NOT NOT",
        ]))),
        1 => line.extend(words(draw.one_of(&["[ v <- o . x ]", "[ v <- TIME + 1 ]", "[ v < - 1 ]", "[ o . x <- 1 ]"]))),
        2 => {
            line.extend(words("("));
            line.extend(formula(draw, depth - 1));
            line.extend(words(")"));
            return line;
        }
        _ => {
            line.extend(formula(draw, depth - 1));
            line.extend(words(draw.one_of(&["AND", "OR", "UNTIL", "UNTIL_WITHIN 3", "UNTIL_AFTER 0", "UNTIL_AFTER"])));
        }
    }
    line.extend(formula(draw, depth - 1));
    line
}

pub fn query(draw: &mut Draw) -> Line {
    let mut line = words(draw.one_of(&[
        "RETRIEVE o FROM car o WHERE",
        "RETRIEVE o , n FROM car o , post n WHERE",
        "RETRIEVE o FROM car o , car n WHERE",
        "RETRIEVE a FROM car a , car b , car c , car d WHERE",
        "RETRIEVE a FROM car a , car b , car c , car d , car e WHERE",
    ]));
    let depth = draw.below(9);
    line.extend(formula(draw, depth));
    line
}

/// The commands beside data and asks of one comparison, and forms that are none.
fn other(draw: &mut Draw) -> Line {
    let span = draw.one_of(&SHORT_SPANS);
    let mut line = match draw.below(22) {
        0 => words("show w"),
        1 => words("drop w"),
        2 => words("save \"file\""),
        3 => words("import car \"file\""),
        4 => words("export car \"file\""),
        5 => words(&format!("nearest {span} {} c1 car", draw.one_of(&["1", "100", "101", "0", "1.5"]))),
        6 => words(&format!("index car fuel {}", draw.one_of(&["10", "0", "-1", "0.001", "1000000000.001"]))),
        7 => words(&format!("range {span} car fuel 5 {}", draw.one_of(&["8", "- 3", "1000000000.001"]))),
        8 => words("list list"),
        9 => words("quit now"),
        10 => words("show"),
        _ => {
            let mut line = match draw.below(6) {
                0 => words(&format!("watch w {span}")),
                1 => words(&format!("keep w {span}")),
                2 => words(&format!("must {} {span}", draw.one_of(&["1", "1000", "1000.001", "-1"]))),
                3 => words(&format!("may 0.5 {span}")),
                _ => words(&format!("ask {span}")),
            };
            if draw.percent(15) {
                let class = draw.below(5);
                line.extend(question(draw, class));
                if line[0] == "ask" {
                    line.extend(words(draw.one_of(&["AND TRUE", "+ 1", ". value", "OR"])));
                }
            } else {
                line.extend(query(draw));
            }
            return line;
        }
    };
    if draw.percent(20) {
        line.push(draw.one_of(&ODD).to_string());
    }
    line
}

pub fn region(draw: &mut Draw, names: usize) -> Line {
    let mut line = words(&format!("region r{}", draw.below(names)));
    let mut points: Vec<(i64, i64)> = match draw.below(20) {
        0 => vec![(0, 10), (6, -8), (-10, 3), (10, 3), (-6, -8)],
        1 => vec![(0, 0), (1, 1), (2, 2)],
        2 => vec![(0, 0), (4, 0), (4, 4), (2, 1)],
        3 => vec![(0, 0), (4, 0), (4, 0), (4, 4)],
        4 => vec![(0, 0), (4, 0), (4, 4), (0, 4), (0, 0), (4, 0), (4, 4), (0, 4)],
        5 => vec![(0, 0), (2, 0), (4, 0), (4, 4), (0, 4), (0, 2)],
        6 => (0..draw.below(6)).map(|_| (draw.below(9) as i64, draw.below(9) as i64)).collect(),
        // points of a parabola
        7 => (0..60 + draw.below(6) as i64).map(|i| (i, i * i)).collect(),
        _ => vec![(0, 0), (3, 0), (3, 5), (0, 5)],
    };
    if draw.percent(40) {
        points.reverse();
    }
    let (dx, dy) = (draw.below(100) as i64 - 50, draw.below(100) as i64 - 50);
    for (x, y) in points {
        for (word, part) in [("(", x + dx), (",", y + dy)] {
            line.extend(words(word));
            if part < 0 {
                line.extend(words("-"));
            }
            line.extend(words(&part.abs().to_string()));
        }
        line.extend(words(")"));
    }
    line
}

pub fn class(draw: &mut Draw) -> Line {
    if draw.percent(10) {
        let (name, rest, _) = CLASSES[draw.below(5)];
        return words(&format!("class {name} {rest}"));
    }
    let capacity = draw.one_of(&["1", "2", "100", "100000", "100001", "0", "1.0", "0000012"]);
    let mut line = words(&format!("class k{} {capacity}", draw.below(90)));
    let point = draw.percent(40);
    if point {
        line.extend(words("point"));
    }
    let count = [0, 1, 1, 2, 3, 16, 17][draw.below(7)];
    for i in 0..count {
        line.extend(words(if i == 0 { "(" } else { "," }));
        line.push(match draw.below(40) {
            0 => "x".to_string(),
            1 => "a0".to_string(),
            _ => format!("a{i}"),
        });
        line.extend(words(draw.one_of(&["num", "text", "dyn"])));
    }
    if count > 0 {
        line.extend(words(")"));
    }
    line
}

pub fn change(draw: &mut Draw, line: &mut Line) {
    let at = draw.below(line.len().max(1));
    match draw.below(6) {
        0 if !line.is_empty() => {
            line.remove(at);
        }
        1 if !line.is_empty() => {
            let word = line[at].clone();
            line.insert(at, word);
        }
        2 if line.len() > 1 => {
            let other = draw.below(line.len());
            line.swap(at, other);
        }
        3 => line.insert(at, draw.one_of(&ODD).to_string()),
        4 if draw.percent(20) => {
            let length = 4_000 + draw.below(200);
            line.push(" ".repeat(length));
        }
        _ if !line.is_empty() => line[at] = draw.one_of(&ODD).to_string(),
        _ => {}
    }
}

/// Whether the two words would be read as one without a space between.
fn need_space(left: &str, right: &str) -> bool {
    let is_part = |byte: Option<&u8>| byte.is_none_or(|byte| byte.is_ascii_alphanumeric() || *byte == b'_');
    let is_symbol = |byte: Option<&u8>| byte.is_none_or(|byte| b"<>!=-".contains(byte));
    let (last, first) = (left.as_bytes().last(), right.as_bytes().first());
    is_part(last) && is_part(first) || is_symbol(last) && is_symbol(first) || left.contains('.') && right == "."
}

pub fn text(draw: &mut Draw, line: &[String]) -> Vec<u8> {
    let style = draw.below(4);
    let mut text = Vec::new();
    for (i, word) in line.iter().enumerate() {
        if i > 0 {
            match style {
                0 if !need_space(&line[i - 1], word) => {}
                1 if draw.percent(20) => text.extend_from_slice(b" \t "),
                _ => text.push(b' '),
            }
        }
        text.extend_from_slice(word.as_bytes());
    }
    text
}

/// Commands of every kind, right ones and faulty ones, some with two faults. Each fourth seed has a late clock,
/// each fourth fills the regions, and one the classes.
pub fn mixed(seed: u64, count: u64) -> io::Result<()> {
    let mut out = io::BufWriter::new(io::stdout().lock());
    let mut draw = Draw::new(seed);
    let manner = seed % 4;
    for (name, rest, _) in CLASSES {
        if draw.percent(90) {
            let line = words(&format!("class {name} {rest}"));
            out.write_all(&text(&mut draw, &line))?;
            out.write_all(b"\n")?;
        }
    }
    for i in CLASSES.len() as u64..count {
        let object = object(&mut draw);
        let likely = class_of(&object);
        let mut line = match draw.below(100) {
            _ if manner == 1 && draw.percent(65) => region(&mut draw, 2_500),
            _ if manner == 2 && draw.percent(15) => class(&mut draw),
            0..25 => {
                let class =
                    if draw.percent(5) { draw.one_of(&["nosuch", "car", "post", "box"]) } else { CLASSES[likely].0 };
                let mut line = words(&format!("insert {class} {object}"));
                line.extend(settings(&mut draw, likely));
                line
            }
            25..50 => {
                let mut line = words(&format!("update {object}"));
                line.extend(settings(&mut draw, likely));
                line
            }
            50..57 => words(&format!("remove {object}")),
            57..62 if manner == 3 && i > count / 3 => words(&format!(
                "tick {}",
                draw.one_of(&["1", "1000", "400000000", "999999999", "1000000000", "1000000001"])
            )),
            57..62 => words(&format!("tick {}", draw.below(6))),
            62..82 => {
                let mut line = words(&format!("ask {}", draw.one_of(&SPANS)));
                line.extend(question(&mut draw, likely));
                line
            }
            82..85 => class(&mut draw),
            85..89 => region(&mut draw, 12),
            89 => words("list"),
            90 => Line::new(),
            91 => words("# a comment ?"),
            _ if i > count - 3 => words("quit"),
            _ => other(&mut draw),
        };
        // a tick that became the greatest one would end the clock too early
        let steady = line.first().is_some_and(|word| word == "tick") && manner != 3;
        let faults = if steady { 0 } else { [0, 0, 0, 0, 0, 0, 0, 0, 1, 2][draw.below(10)] };
        for _ in 0..faults {
            change(&mut draw, &mut line);
        }
        out.write_all(&text(&mut draw, &line))?;
        out.write_all(if draw.percent(3) { b"\r\n" } else { b"\n" })?;
    }
    // the last line lacks its line feed, or has a carriage return that isn't dropped
    out.write_all(draw.one_of(&["list", "list\r", "list\r\r\n"]).as_bytes())?;
    out.flush()
}
