// Sets of ticks as ascending spans, no two of them neighbours, and where linear and quadratic functions of whole
// numbers compare with 0.

pub type Span = (u32, u32);

/// Adds a span that doesn't begin before the last one.
pub fn push(out: &mut Vec<Span>, (lo, hi): Span) {
    match out.last_mut() {
        Some(last) if lo <= last.1 + 1 => last.1 = last.1.max(hi),
        _ => out.push((lo, hi)),
    }
}

pub fn unite(f: &[Span], g: &[Span], out: &mut Vec<Span>) {
    let (mut f, mut g) = (f, g);
    while let Some(first) = f.first().into_iter().chain(g.first()).min() {
        push(out, *first);
        if f.first() == Some(first) {
            f = &f[1..];
        } else {
            g = &g[1..];
        }
    }
}

pub fn meet(f: &[Span], g: &[Span], out: &mut Vec<Span>) {
    let (mut i, mut j) = (0, 0);
    while i < f.len() && j < g.len() {
        let (lo, hi) = (f[i].0.max(g[j].0), f[i].1.min(g[j].1));
        if lo <= hi {
            out.push((lo, hi));
        }
        if f[i].1 < g[j].1 {
            i += 1;
        } else {
            j += 1;
        }
    }
}

/// The ticks of `lo..=hi` that aren't in f, which lies there.
pub fn complement(f: &[Span], (lo, hi): Span, out: &mut Vec<Span>) {
    let mut from = lo;
    for span in f {
        if from < span.0 {
            out.push((from, span.0 - 1));
        }
        from = span.1 + 1;
    }
    if from <= hi {
        out.push((from, hi));
    }
}

pub fn clip(f: &[Span], window: Span, out: &mut Vec<Span>) {
    meet(f, &[window], out);
}

/// The ticks t of the window with a tick of f from t + least to t + most.
pub fn some(f: &[Span], least: u64, most: u64, window: Span, out: &mut Vec<Span>) {
    for span in f {
        let lo = u64::from(span.0).saturating_sub(most).max(u64::from(window.0));
        let hi = u64::from(span.1).checked_sub(least).map(|hi| hi.min(u64::from(window.1)));
        if let Some(hi) = hi.filter(|hi| lo <= *hi) {
            push(out, (lo as u32, hi as u32));
        }
    }
}

/// The ticks t of the window with a tick u of g from t + least to t + most, where f holds from t to u - 1.
pub fn until(f: &[Span], g: &[Span], least: u64, most: u64, window: Span, out: &mut Vec<Span>) {
    let mut first = 0;
    for run in f {
        while first < g.len() && g[first].1 < run.0 {
            first += 1;
        }
        for span in g[first..].iter().take_while(|span| span.0 <= run.1 + 1) {
            let (from, to) = (span.0.max(run.0), span.1.min(run.1 + 1));
            let lo = u64::from(from).saturating_sub(most).max(u64::from(run.0.max(window.0)));
            let hi = u64::from(to).checked_sub(least).map(|hi| hi.min(u64::from(run.1.min(window.1))));
            if let Some(hi) = hi.filter(|hi| lo <= *hi) {
                push(out, (lo as u32, hi as u32));
            }
        }
    }
}

/// The numbers k of `0..=last` with a·k + b at least 0.
fn at_least(a: i128, b: i128, last: u32) -> Option<Span> {
    let (Ok(a), Ok(b)) = (i64::try_from(a), i64::try_from(b)) else {
        return match (a > 0, b >= 0) {
            (true, true) => Some((0, last)),
            (false, false) => None,
            (true, false) => up(last, (-b + a - 1) / a),
            (false, true) if a == 0 => Some((0, last)),
            (false, true) => Some((0, (b / -a).min(i128::from(last)) as u32)),
        };
    };
    match (a > 0, b >= 0) {
        (true, true) => Some((0, last)),
        (false, false) => None,
        // without overflow: b is negative and a positive
        (true, false) => up(last, i128::from((-(b + 1)) / a) + 1),
        (false, true) if a == 0 || a == i64::MIN => at_rest(a, last),
        (false, true) => Some((0, (b / -a).min(i64::from(last)) as u32)),
    }
}

fn at_rest(a: i64, last: u32) -> Option<Span> {
    Some((0, if a == 0 { last } else { 0 }))
}

fn up(last: u32, first: i128) -> Option<Span> {
    (first <= i128::from(last)).then_some((first as u32, last))
}

fn add(out: &mut Vec<Span>, lo: u32, found: Option<Span>) {
    if let Some((first, last)) = found {
        push(out, (lo + first, lo + last));
    }
}

fn both(f: Option<Span>, g: Option<Span>) -> Option<Span> {
    let ((a, b), (c, d)) = (f?, g?);
    (a.max(c) <= b.min(d)).then_some((a.max(c), b.min(d)))
}

/// Adds the ticks of the window at which a·(tick - lo) + b compares with 0.
pub fn solve(a: i128, b: i128, op: u8, (lo, hi): Span, out: &mut Vec<Span>) {
    let last = hi - lo;
    match op {
        0 => add(out, lo, at_least(-a, -b - 1, last)),
        1 => add(out, lo, at_least(-a, -b, last)),
        2 => add(out, lo, both(at_least(a, b, last), at_least(-a, -b, last))),
        3 => {
            let (less, more) = (at_least(-a, -b - 1, last), at_least(a, b - 1, last));
            add(out, lo, less.min(more).or(less).or(more));
            add(out, lo, less.and(more).and(less.max(more)));
        }
        4 => add(out, lo, at_least(a, b, last)),
        _ => add(out, lo, at_least(a, b - 1, last)),
    }
}

/// The numbers k of `0..=last` with all of a·k + b at least 0.
pub fn all_at_least(lines: impl Iterator<Item = (i128, i128)>, last: u32) -> Option<Span> {
    let mut all = (0, last);
    for (a, b) in lines {
        all = both(Some(all), at_least(a, b, last))?;
    }
    Some(all)
}

pub fn cross(a: (i64, i64), b: (i64, i64)) -> i128 {
    i128::from(a.0) * i128::from(b.1) - i128::from(a.1) * i128::from(b.0)
}

/// The squared distance of two motions k ticks after a first one, as a·k² + 2·b·k + c.
#[derive(Clone, Copy)]
pub struct Quad {
    pub a: i128,
    pub b: i128,
    pub c: i128,
}

impl Quad {
    pub fn of((x, y): (i64, i64), (dx, dy): (i64, i64)) -> Quad {
        let sum = |a: i64, b: i64, c: i64, d: i64| i128::from(a) * i128::from(b) + i128::from(c) * i128::from(d);
        Quad { a: sum(dx, dx, dy, dy), b: sum(x, dx, y, dy), c: sum(x, x, y, y) }
    }

    pub fn at(&self, k: i64) -> i128 {
        let k = i128::from(k);
        (self.a * k + 2 * self.b) * k + self.c
    }

    /// The numbers k of `0..=last` at which the square is at most c2.
    pub fn within(&self, c2: i128, last: u32) -> Option<Span> {
        let end = i64::from(last);
        if self.a == 0 {
            return (self.c <= c2).then_some((0, last));
        }
        // nearest before the first tick or after the last one: no root is needed
        if self.b >= 0 && self.c > c2 {
            return None;
        }
        if self.a * i128::from(end) + self.b <= 0 && self.at(end) > c2 {
            return None;
        }
        let (a, b) = (self.a as f64, self.b as f64);
        let above = self.c - c2;
        // a quarter of the discriminant: where b is too large to be squared exactly, near 0 the ticks are looked at
        let quarter = match self.b.checked_mul(self.b).zip(self.a.checked_mul(above)) {
            Some((b2, ac)) if b2 < ac => return None,
            Some((b2, ac)) => (b2 - ac) as f64,
            None => (b * b - a * above as f64).max(0.0),
        };
        let root = quarter.sqrt();
        let lowest = ((-b / a).round() as i64).clamp(0, end);
        let lowest = (lowest - 1..=lowest + 1).filter(|k| (0..=end).contains(k)).min_by_key(|k| self.at(*k))?;
        if self.at(lowest) > c2 {
            return None;
        }
        let first = ((-b - root) / a).ceil() as i64;
        let final_one = ((-b + root) / a).floor() as i64;
        Some((self.first(first.clamp(0, lowest), lowest, c2), self.last(final_one.clamp(lowest, end), end, lowest, c2)))
    }

    /// The first number that is near, from a guess at it that isn't after a near one.
    fn first(&self, guess: i64, lowest: i64, c2: i128) -> u32 {
        let mut k = guess;
        while k < lowest && self.at(k) > c2 {
            k += 1;
        }
        while k > 0 && self.at(k - 1) <= c2 {
            k -= 1;
        }
        k as u32
    }

    fn last(&self, guess: i64, end: i64, lowest: i64, c2: i128) -> u32 {
        let mut k = guess;
        while k > lowest && self.at(k) > c2 {
            k -= 1;
        }
        while k < end && self.at(k + 1) <= c2 {
            k += 1;
        }
        k as u32
    }

    /// Adds the ticks of the window at which the distance compares with c.
    pub fn compare(&self, op: u8, c: i128, (lo, hi): Span, out: &mut Vec<Span>) {
        let last = hi - lo;
        if c < 0 {
            if matches!(op, 3..=5) {
                push(out, (lo, hi));
            }
            return;
        }
        let near = |c2: i128| if c2 < 0 { None } else { self.within(c2, last) };
        let c2 = c * c;
        match op {
            0 => add(out, lo, near(c2 - 1)),
            1 => add(out, lo, near(c2)),
            2 => self.around(near(c2 - 1), near(c2), lo, out),
            3 => {
                let (inner, outer) = (near(c2 - 1), near(c2));
                self.beyond(outer, (lo, hi), inner, out);
            }
            4 => self.beyond(near(c2 - 1), (lo, hi), None, out),
            _ => self.beyond(near(c2), (lo, hi), None, out),
        }
    }

    /// The ticks of the outer span that aren't in the inner one.
    fn around(&self, inner: Option<Span>, outer: Option<Span>, lo: u32, out: &mut Vec<Span>) {
        match (inner, outer) {
            (Some((a, b)), Some((c, d))) => {
                if c < a {
                    push(out, (lo + c, lo + a - 1));
                }
                if b < d {
                    push(out, (lo + b + 1, lo + d));
                }
            }
            (_, outer) => add(out, lo, outer),
        }
    }

    /// The ticks of the window that aren't in the span, and those of the inner one.
    fn beyond(&self, span: Option<Span>, (lo, hi): Span, inner: Option<Span>, out: &mut Vec<Span>) {
        let Some((a, b)) = span else {
            push(out, (lo, hi));
            return;
        };
        if a > 0 {
            push(out, (lo, lo + a - 1));
        }
        add(out, lo, inner);
        if lo + b < hi {
            push(out, (lo + b + 1, hi));
        }
    }
}
