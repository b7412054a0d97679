// The objects that are among the nearest to one of many that move, and when, in plain Rust without proofs: the
// yardstick of `nearest_rows`, by the store and the plan of `asks`.
#[allow(dead_code)]
#[path = "asks/answer.rs"]
mod answer;
#[allow(dead_code)]
#[path = "session/circle.rs"]
mod circle;
#[allow(dead_code)]
#[path = "asks/evaluate.rs"]
mod evaluate;
#[allow(dead_code)]
#[path = "grammar.rs"]
mod grammar;
#[allow(dead_code)]
#[path = "session/history.rs"]
mod history;
#[allow(dead_code)]
#[path = "asks/join.rs"]
mod join;
#[allow(dead_code)]
#[path = "asks/nearest.rs"]
mod nearest;
#[allow(dead_code)]
#[path = "session/resolve.rs"]
mod resolve;
#[allow(dead_code)]
#[path = "asks/spans.rs"]
mod spans;
#[allow(dead_code)]
#[path = "asks/store.rs"]
mod store;

use grammar::{Command, Legs, Place, Word};
use history::Refusal;
use std::time::Instant;
use store::Store;

const LAST: u32 = 1_000_000;
const NEAR: u32 = 10;
const PLACES: u32 = 1_000_000;
const SLOPES: u32 = 1_000;

fn next(seed: &mut u64) -> u64 {
    *seed = seed.wrapping_mul(6_364_136_223_846_793_005).wrapping_add(1_442_695_040_888_963_407);
    *seed
}

fn spread(seed: &mut u64, size: u32) -> i64 {
    let width = 2 * u64::from(size) + 1;
    ((next(seed) >> 20) % width) as i64 - i64::from(size)
}

fn coordinate(seed: &mut u64) -> i64 {
    i64::from((next(seed) >> 33) as u32 % (PLACES + 1))
}

fn legs(seed: &mut u64) -> Legs {
    Legs { firsts: Box::default(), last: spread(seed, SLOPES) as i32 }
}

fn word(text: &str) -> Word {
    Word::of(text.as_bytes()).unwrap()
}

fn filled(count: u32) -> Result<Store, Refusal> {
    let mut store = Store::default();
    store.apply(Command::Class(word("car"), 100_000, true, Vec::new()))?;
    let mut seed = 1;
    for n in 0..count {
        let at = Some((coordinate(&mut seed), coordinate(&mut seed)));
        let moving = Some((legs(&mut seed), legs(&mut seed)));
        store.apply(Command::Insert(word("car"), word(&n.to_string()), Place { at, moving }, Vec::new()))?;
    }
    Ok(store)
}

/// What was found.
#[derive(Default)]
struct Found {
    rows: u64,
    runs: u64,
    ticks: u64,
    /// What the objects and the ends of the runs make in their order.
    sum: u64,
}

impl Found {
    fn add(&mut self, place: usize, row: &[spans::Span]) {
        if row.is_empty() {
            return;
        }
        self.rows += 1;
        self.mix(place as u32);
        for (lo, hi) in row {
            self.runs += 1;
            self.ticks += u64::from(hi - lo) + 1;
            self.mix(*lo);
            self.mix(*hi);
        }
    }

    fn mix(&mut self, number: u32) {
        self.sum = self.sum.wrapping_mul(31).wrapping_add(u64::from(number));
    }
}

fn main() {
    let words: Vec<String> = std::env::args().collect();
    let count: u32 = words[2].parse().unwrap();
    let rounds: u32 = words[3].parse().unwrap();
    let store = filled(count).unwrap();

    let mut found = Found::default();
    let begun = Instant::now();
    for round in 0..rounds {
        let to = round % count.max(1);
        if to < count {
            for (place, row) in nearest::nearest_rows(&store, (to, 0), NEAR, (0, LAST)) {
                found.add(place, &row);
            }
        }
    }
    let nanos = begun.elapsed().as_nanos();
    let Found { rows, runs, ticks, sum } = found;
    println!("nearest {rows} rows, sum {sum}");
    println!("nearest {runs} runs {ticks} ticks");
    if rounds > 0 {
        let tenths = nanos * 10 / u128::from(rounds);
        eprintln!("nearest {}.{} ns a call", tenths / 10, tenths % 10);
    }
}
