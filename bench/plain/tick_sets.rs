// The yardstick of `tick_sets` and `small_sets`: the same operations on the same sets, in plain Rust without
// proofs. A set is a list of spans in ascending order with a gap after each, and each operation is written by itself:
// one walk over the lists.
use std::time::Instant;

type Spans = Vec<(u32, u32)>;

const LAST_TICK: u32 = 1_000_000_000;

fn comb(first: u32, count: u32) -> Spans {
    (0..count).map(|i| (first + 9 * i, first + 9 * i + 2)).collect()
}

/// The spans of both lists by their beginnings, where those that touch become one.
fn union(a: &[(u32, u32)], b: &[(u32, u32)]) -> Spans {
    let mut out: Spans = Vec::with_capacity(a.len() + b.len());
    let (mut i, mut j) = (0, 0);
    loop {
        let (lo, hi) = match (a.get(i), b.get(j)) {
            (Some(&s), Some(&t)) if t.0 < s.0 => {
                j += 1;
                t
            }
            (Some(&s), _) => {
                i += 1;
                s
            }
            (None, Some(&t)) => {
                j += 1;
                t
            }
            (None, None) => return out,
        };
        match out.last_mut() {
            Some(last) if lo <= last.1 + 1 => last.1 = last.1.max(hi),
            _ => out.push((lo, hi)),
        }
    }
}

/// What two spans have in common, and then on to the next one in the list whose span ends first.
fn meet(a: &[(u32, u32)], b: &[(u32, u32)]) -> Spans {
    let mut out = Vec::with_capacity(a.len() + b.len());
    let (mut i, mut j) = (0, 0);
    while let (Some(s), Some(t)) = (a.get(i), b.get(j)) {
        let (lo, hi) = (s.0.max(t.0), s.1.min(t.1));
        if lo <= hi {
            out.push((lo, hi));
        }
        if s.1 < t.1 {
            i += 1;
        } else {
            j += 1;
        }
    }
    out
}

/// The gaps up to the last tick.
fn complement(a: &[(u32, u32)]) -> Spans {
    let mut out = Vec::with_capacity(a.len() + 1);
    let mut from = 0;
    for &(lo, hi) in a {
        if from < lo {
            out.push((from, lo - 1));
        }
        from = hi + 1;
    }
    if from <= LAST_TICK {
        out.push((from, LAST_TICK));
    }
    out
}

/// One walk over both: each span of the goal, from where the guard's span that leads to it begins.
fn until(guard: &[(u32, u32)], goal: &[(u32, u32)]) -> Spans {
    let mut out: Spans = Vec::with_capacity(goal.len());
    let mut i = 0;
    for &(lo, hi) in goal {
        while i < guard.len() && guard[i].1 + 1 < lo {
            i += 1;
        }
        let from = guard.get(i).map_or(lo, |leading| lo.min(leading.0));
        match out.last_mut() {
            Some(last) if from <= last.1 + 1 => last.1 = hi,
            _ => out.push((from, hi)),
        }
    }
    out
}

fn next(seed: &mut u64) -> u64 {
    *seed = seed.wrapping_mul(6_364_136_223_846_793_005).wrapping_add(1_442_695_040_888_963_407);
    *seed
}

/// A set of one to three spans, each of up to 1,000 ticks, cut at the last tick of the window.
fn small_set(seed: &mut u64) -> Spans {
    let count = (next(seed) >> 20) % 3 + 1;
    (0..count).fold(Spans::new(), |set, _| {
        let lo = ((next(seed) >> 20) % 9_000) as u32;
        let length = ((next(seed) >> 20) % 1_000) as u32;
        union(&set, &[(lo, (lo + length).min(10_000))])
    })
}

fn timed(name: &str, rounds: u32, spans: usize, operation: impl Fn() -> Spans) {
    let begun = Instant::now();
    let mut found = 0;
    for _ in 0..rounds {
        found = operation().len();
    }
    let nanos = begun.elapsed().as_nanos();
    println!("{name} {found} spans");
    eprintln!("{name} {:.1} ns a span", nanos as f64 / (f64::from(rounds) * spans as f64));
}

fn timed_small(name: &str, rounds: u32, sets: &[Spans], operation: impl Fn(&Spans, &Spans) -> Spans) {
    let begun = Instant::now();
    let mut spans = 0;
    for _ in 0..rounds {
        for pair in sets.windows(2) {
            spans += operation(&pair[0], &pair[1]).len();
        }
    }
    let nanos = begun.elapsed().as_nanos();
    println!("{name} {spans} spans");
    eprintln!("{name} {:.1} ns a call", nanos as f64 / (f64::from(rounds) * sets.len() as f64));
}

fn large(count: u32, rounds: u32) {
    let (a, b) = (comb(5, count), comb(7, count));
    let both = a.len() + b.len();
    timed("union", rounds, both, || union(&a, &b));
    timed("meet", rounds, both, || meet(&a, &b));
    timed("complement", rounds, both, || complement(&a));
    timed("until", rounds, both, || until(&a, &b));
}

fn small(count: u32, rounds: u32) {
    let mut seed = 3;
    let sets: Vec<Spans> = (0..count).map(|_| small_set(&mut seed)).collect();
    timed_small("small_union", rounds, &sets, |a, b| union(a, b));
    timed_small("small_meet", rounds, &sets, |a, b| meet(a, b));
    timed_small("small_until", rounds, &sets, |a, b| until(a, b));
}

fn main() {
    let words: Vec<String> = std::env::args().skip(1).collect();
    let (count, rounds) = (words[1].parse().unwrap(), words[2].parse().unwrap());
    match words[0].as_str() {
        "tick_sets" => large(count, rounds),
        "small_sets" => small(count, rounds),
        word => panic!("no such word: {word}"),
    }
}
