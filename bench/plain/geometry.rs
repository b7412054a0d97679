// The yardstick of `geometry`, `distances` and `circles`: the same calls on the same motions, in plain Rust
// without proofs.
use std::time::Instant;

const LAST: u32 = 1_000_000;
const LONG: u32 = 100_000_000;
const LIMIT: i128 = 160_000_000_000_000_000;

type Span = Option<(u32, u32)>;

#[derive(Clone, Copy)]
enum Op {
    Lt,
    Le,
    Eq,
    Ne,
    Ge,
    Gt,
}

#[derive(Clone, Copy)]
struct Point {
    x: i64,
    y: i64,
}

struct Line {
    at: Point,
    dx: i32,
    dy: i32,
}

/// The first number below `count` at which the function is not negative.
fn first_reached(rise: u128, start: i128, count: u32) -> u32 {
    if start >= 0 {
        return 0;
    }
    let depth = start.unsigned_abs();
    // A product tells without a division that it is negative up to the last number.
    if rise * u128::from(count.saturating_sub(1)) < depth {
        return count;
    }
    depth.div_ceil(rise) as u32
}

fn stretch(w: (u32, u32), from: u32, until: u32) -> Span {
    (from < until).then(|| (w.0 + from, w.0 + until - 1))
}

fn solve(a: i128, b: i128, op: Op, w: (u32, u32)) -> (Span, Span) {
    if a >= 0 {
        return rising(a.unsigned_abs(), b, op, w);
    }
    let mirrored = match op {
        Op::Lt => Op::Gt,
        Op::Le => Op::Ge,
        Op::Eq => Op::Eq,
        Op::Ne => Op::Ne,
        Op::Ge => Op::Le,
        Op::Gt => Op::Lt,
    };
    rising(a.unsigned_abs(), -b, mirrored, w)
}

fn rising(rise: u128, start: i128, op: Op, w: (u32, u32)) -> (Span, Span) {
    let count = w.1 + 1 - w.0;
    let reached = |start| first_reached(rise, start, count);
    match op {
        Op::Lt => (stretch(w, 0, reached(start)), None),
        Op::Le => (stretch(w, 0, reached(start - 1)), None),
        Op::Eq => (stretch(w, reached(start), reached(start - 1)), None),
        Op::Ne => {
            let (from, until) = (reached(start), reached(start - 1));
            if from >= until {
                return (stretch(w, 0, count), None);
            }
            let (first, second) = (stretch(w, 0, from), stretch(w, until, count));
            if first.is_none() { (second, None) } else { (first, second) }
        }
        Op::Ge => (stretch(w, reached(start), count), None),
        Op::Gt => (stretch(w, reached(start - 1), count), None),
    }
}

/// The squared distance of two motions, by the ticks since the window's first.
struct Quad {
    x: i64,
    y: i64,
    dx: i64,
    dy: i64,
}

impl Quad {
    fn between(p: &Line, q: &Line) -> Quad {
        Quad {
            x: q.at.x - p.at.x,
            y: q.at.y - p.at.y,
            dx: i64::from(q.dx) - i64::from(p.dx),
            dy: i64::from(q.dy) - i64::from(p.dy),
        }
    }

    fn at(&self, k: u32) -> i128 {
        let x = i128::from(self.x + self.dx * i64::from(k));
        let y = i128::from(self.y + self.dy * i64::from(k));
        x * x + y * y
    }

    /// The first number up to `last` at which the value is least.
    fn valley(&self, last: u32) -> u32 {
        let (x, y) = (i128::from(self.x), i128::from(self.y));
        let (dx, dy) = (i128::from(self.dx), i128::from(self.dy));
        let speed = dx * dx + dy * dy;
        let drift = x * dx + y * dy;
        first_reached(2 * speed.unsigned_abs(), speed + 2 * drift, last)
    }

    /// A guess of the first and the last number of `0..=last` at which the value is at most the limit.
    fn reach(&self, limit: i128, last: u32) -> (u32, u32) {
        let (x, y, dx, dy) = (self.x as f64, self.y as f64, self.dx as f64, self.dy as f64);
        let speed = dx * dx + dy * dy;
        if speed == 0.0 {
            return (0, last);
        }
        let cross = x * dy - y * dx;
        let middle = -(x * dx + y * dy);
        let half = (limit as f64 * speed - cross * cross).max(0.0).sqrt();
        let closest = |root: f64| ((root + 0.5) as u32).min(last);
        (closest((middle - half) / speed), closest((middle + half) / speed))
    }
}

/// The ticks at which the squared distance is at most `limit`, by the valley, and on each side by a guess of the end
/// and a number next to it, and a bisection of what is left where the end is at neither. `probe` is called once for
/// each value that is looked at.
fn within(q: &Quad, limit: i128, w: (u32, u32), mut probe: impl FnMut()) -> Span {
    let mut near = |k| {
        probe();
        q.at(k) <= limit
    };
    let last = w.1 - w.0;
    let nearest = q.valley(last);
    if !near(nearest) {
        return None;
    }
    let (first, end) = q.reach(limit, last);
    let (first, end) = (first.min(nearest), end.max(nearest));
    let (mut low, mut high) = if first < nearest && !near(first) {
        if first + 1 < nearest && !near(first + 1) { (first + 2, nearest) } else { (first + 1, first + 1) }
    } else if 0 < first && near(first - 1) {
        (0, first - 1)
    } else {
        (first, first)
    };
    while low < high {
        let middle = low + (high - low) / 2;
        if near(middle) {
            high = middle;
        } else {
            low = middle + 1;
        }
    }
    let first = high;
    (low, high) = if nearest < end && !near(end) {
        if nearest < end - 1 && !near(end - 1) { (nearest, end - 2) } else { (end - 1, end - 1) }
    } else if end < last && near(end + 1) {
        (end + 1, last)
    } else {
        (end, end)
    };
    while low < high {
        let middle = high - (high - low) / 2;
        if near(middle) {
            low = middle;
        } else {
            high = middle - 1;
        }
    }
    Some((w.0 + first, w.0 + low))
}

fn cross(p: Point, q: Point, r: Point) -> i128 {
    i128::from(q.x - p.x) * i128::from(r.y - p.y) - i128::from(q.y - p.y) * i128::from(r.x - p.x)
}

/// The ticks at which the comparison of the squared distance with `square` holds.
fn compare(q: &Quad, op: Op, square: i128, w: (u32, u32)) -> [Span; 3] {
    let near = |limit| within(q, limit, w, || ());
    match op {
        Op::Lt => [near(square - 1), None, None],
        Op::Le => [near(square), None, None],
        Op::Ge => outside(near(square - 1), w),
        Op::Gt => outside(near(square), w),
        Op::Eq => between(near(square), near(square - 1)),
        Op::Ne => complement(between(near(square), near(square - 1)), w),
    }
}

fn outside(inner: Span, w: (u32, u32)) -> [Span; 3] {
    let Some((lo, hi)) = inner else {
        return [Some(w), None, None];
    };
    let before = (lo > w.0).then(|| (w.0, lo - 1));
    let after = (hi < w.1).then(|| (hi + 1, w.1));
    if before.is_some() { [before, after, None] } else { [after, None, None] }
}

fn complement(runs: [Span; 3], w: (u32, u32)) -> [Span; 3] {
    let mut gaps = [None; 3];
    let (mut from, mut count) = (w.0, 0);
    for (lo, hi) in runs.into_iter().flatten() {
        if from < lo {
            gaps[count] = Some((from, lo - 1));
            count += 1;
        }
        from = hi + 1;
    }
    if from <= w.1 {
        gaps[count] = Some((from, w.1));
    }
    gaps
}

fn between(wide: Span, narrow: Span) -> [Span; 3] {
    match (wide, narrow) {
        (Some(wide), Some(narrow)) => outside(Some(narrow), wide),
        (wide, _) => [wide, None, None],
    }
}

impl Line {
    fn position(&self, k: u32) -> Point {
        Point {
            x: self.at.x + i64::from(self.dx) * i64::from(k),
            y: self.at.y + i64::from(self.dy) * i64::from(k),
        }
    }
}

fn squared_distance(p: Point, q: Point) -> i128 {
    let (x, y) = (i128::from(p.x - q.x), i128::from(p.y - q.y));
    x * x + y * y
}

/// The square of the diameter of the least circle round three points, as a fraction.
fn least_circle(p: Point, q: Point, s: Point) -> (u128, u128) {
    let (a, b, c) = (squared_distance(p, q), squared_distance(q, s), squared_distance(s, p));
    let longest = a.max(b).max(c);
    if a + b + c - longest <= longest {
        return (longest.unsigned_abs(), 1);
    }
    let area = cross(p, q, s);
    ((a * b * c).unsigned_abs(), (area * area).unsigned_abs())
}

/// The product in two halves, the high one first.
fn product(a: u128, b: u128) -> (u128, u128) {
    const LOW: u128 = u64::MAX as u128;
    let (a1, a0, b1, b0) = (a >> 64, a & LOW, b >> 64, b & LOW);
    let low = a0 * b0;
    let cross = a1 * b0 + (low >> 64);
    let other = a0 * b1 + (cross & LOW);
    (a1 * b1 + (cross >> 64) + (other >> 64), (other << 64) | (low & LOW))
}

/// The numbers of a span at which three motions fit a circle whose squared diameter is `width`: one of them by
/// bisection on the least circle, which shrinks and then grows, and then each end.
fn three_together(lines: [&Line; 3], width: u128, near: (u32, u32)) -> Span {
    let circle = |k| least_circle(lines[0].position(k), lines[1].position(k), lines[2].position(k));
    let fits = |(over, under): (u128, u128)| over <= width * under;
    let (mut low, mut until) = (near.0, near.1 + 1);
    let found = loop {
        if low >= until {
            return None;
        }
        let middle = low + (until - low) / 2;
        let here = circle(middle);
        if fits(here) {
            break middle;
        }
        let falls = middle < near.1 && {
            let next = circle(middle + 1);
            product(next.0, here.1) < product(here.0, next.1)
        };
        if falls { low = middle + 1 } else { until = middle }
    };
    let (mut low, mut first) = (near.0, found);
    while low < first {
        let middle = low + (first - low) / 2;
        if fits(circle(middle)) { first = middle } else { low = middle + 1 }
    }
    let (mut end, mut high) = (found, near.1);
    while end < high {
        let middle = high - (high - end) / 2;
        if fits(circle(middle)) { end = middle } else { high = middle - 1 }
    }
    Some((first, end))
}

/// The ticks at which three or four motions fit a circle.
fn together(lines: &[Line], radius: i128, w: (u32, u32)) -> Span {
    let width = 4 * radius * radius;
    let mut near = w;
    for (i, p) in lines.iter().enumerate() {
        for q in &lines[i + 1..] {
            let (lo, hi) = within(&Quad::between(p, q), width, w, || ())?;
            near = (near.0.max(lo), near.1.min(hi));
            if near.0 > near.1 {
                return None;
            }
        }
    }
    let width = width.unsigned_abs();
    match lines {
        [p, q, s] => three_together([p, q, s], width, near),
        [p, q, s, u] => [[p, q, s], [p, q, u], [p, s, u], [q, s, u]]
            .into_iter()
            .try_fold(near, |span, three| three_together(three, width, span)),
        _ => Some(near),
    }
}

/// One crossing for each edge of a counterclockwise list, and what they have in common.
fn inside_ticks(points: &[Point], l: &Line, w: (u32, u32)) -> Span {
    let mut kept = w;
    for (i, &start) in points.iter().enumerate() {
        let end = *points.get(i + 1).unwrap_or(&points[0]);
        let climb = i128::from(end.x - start.x) * i128::from(l.dy)
            - i128::from(end.y - start.y) * i128::from(l.dx);
        let (lo, hi) = solve(climb, cross(start, end, l.at), Op::Ge, w).0?;
        kept = (kept.0.max(lo), kept.1.min(hi));
        if kept.0 > kept.1 {
            return None;
        }
    }
    Some(kept)
}

fn next(seed: &mut u64) -> u64 {
    *seed = seed.wrapping_mul(6_364_136_223_846_793_005).wrapping_add(1_442_695_040_888_963_407);
    *seed
}

fn spread(seed: &mut u64, size: u32) -> i64 {
    let width = 2 * u64::from(size) + 1;
    ((next(seed) >> 20) % width) as i64 - i64::from(size)
}

fn functions(count: u32) -> Vec<(i64, i64, Op)> {
    let ops = [Op::Lt, Op::Le, Op::Eq, Op::Ne, Op::Ge, Op::Gt];
    let mut seed = 1;
    (0..count)
        .map(|i| {
            let rise = spread(&mut seed, 1_000_000);
            (rise, 500_000 * spread(&mut seed, 1_000_000), ops[i as usize % 6])
        })
        .collect()
}

/// Motions that begin so far from a middle, with slopes of such sizes.
fn motions(count: u32, middle: i64, places: u32, slopes: u32) -> Vec<Line> {
    let mut seed = 2;
    (0..count)
        .map(|_| {
            let x = middle + spread(&mut seed, places);
            let y = middle + spread(&mut seed, places);
            let dx = spread(&mut seed, slopes) as i32;
            let dy = spread(&mut seed, slopes) as i32;
            Line { at: Point { x, y }, dx, dy }
        })
        .collect()
}

fn pairs(lines: &[Line]) -> Vec<Quad> {
    lines.windows(2).map(|pair| Quad::between(&pair[0], &pair[1])).collect()
}

fn square() -> Vec<Point> {
    let side = 480_000_000;
    [(-side, -side), (side, -side), (side, side), (-side, side)].map(|(x, y)| Point { x, y }).to_vec()
}

fn lens() -> Vec<Point> {
    (0..64)
        .map(|i: i64| {
            let (x, y) = if i < 32 {
                (i - 16, (i - 16) * (i - 16) - 256)
            } else {
                (48 - i, 256 - (48 - i) * (48 - i))
            };
            Point { x: x * 30_000_000, y: y * 3_000_000 }
        })
        .collect()
}

fn timed<T, I: IntoIterator<Item = T>>(
    name: &str,
    rounds: u32,
    items: impl Fn() -> I,
    call: impl Fn(T) -> [Span; 3],
) {
    let begun = Instant::now();
    let (mut runs, mut ticks, mut calls) = (0u64, 0u64, 0u64);
    for _ in 0..rounds {
        for item in items() {
            calls += 1;
            for (lo, hi) in call(item).into_iter().flatten() {
                runs += 1;
                ticks += u64::from(hi - lo) + 1;
            }
        }
    }
    let nanos = begun.elapsed().as_nanos();
    println!("{name} {runs} runs {ticks} ticks");
    eprintln!("{name} {:.1} ns a call", nanos as f64 / calls as f64);
}

fn geometry(count: u32, rounds: u32) {
    let w = (0, LAST);
    let functions = functions(count);
    timed("solve", rounds, || &functions, |&(a, b, op)| {
        let (first, second) = solve(a.into(), b.into(), op, w);
        [first, second, None]
    });
    let lines = motions(count, 0, 600_000_000, 2_000);
    let pairs = pairs(&lines);
    timed("within", rounds, || &pairs, |q| [within(q, LIMIT, w, || ()), None, None]);
    let mut probes = 0u64;
    pairs.iter().for_each(|q| {
        within(q, LIMIT, w, || probes += 1);
    });
    eprintln!("within {:.1} probes a call", probes as f64 / pairs.len() as f64);
    let (square, lens) = (square(), lens());
    timed("inside_4", rounds, || &lines, |l| [inside_ticks(&square, l, w), None, None]);
    timed("inside_64", rounds, || &lines, |l| [inside_ticks(&lens, l, w), None, None]);
}

fn distances(count: u32, rounds: u32) {
    let w = (0, LAST);
    let passing = pairs(&motions(count, 0, 600_000_000, 2_000));
    let operators = [
        ("compare_lt", Op::Lt),
        ("compare_le", Op::Le),
        ("compare_eq", Op::Eq),
        ("compare_ne", Op::Ne),
        ("compare_ge", Op::Ge),
        ("compare_gt", Op::Gt),
    ];
    for (name, op) in operators {
        timed(name, rounds, || &passing, |q| compare(q, op, LIMIT, w));
    }
    let near = |name, lines: Vec<Line>, w| {
        let pairs = pairs(&lines);
        timed(name, rounds, || &pairs, |q| [within(q, LIMIT, w, || ()), None, None]);
    };
    near("parked", motions(count, 0, 200_000_000, 0), w);
    near("long", motions(count, 0, 600_000_000, 20), (0, LONG));
    near("far", motions(count, 1_000_000_000_000_000, 600_000_000, 2_000), w);
}

fn circles(count: u32, rounds: u32) {
    let lines = motions(count, 0, 200_000, 2);
    let circles = [("near_3", 3, 350_000), ("near_4", 4, 350_000), ("tight_3", 3, 220_000), ("tight_4", 4, 220_000)];
    for (name, size, radius) in circles {
        let call = |group: &[Line]| [together(group, radius, (0, 99_999)), None, None];
        timed(name, rounds, || lines.windows(size), call);
    }
}

fn main() {
    let words: Vec<String> = std::env::args().skip(1).collect();
    let (count, rounds) = (words[1].parse().unwrap(), words[2].parse().unwrap());
    match words[0].as_str() {
        "geometry" => geometry(count, rounds),
        "distances" => distances(count, rounds),
        "circles" => circles(count, rounds),
        word => panic!("no such word: {word}"),
    }
}
