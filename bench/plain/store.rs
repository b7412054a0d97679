// The work of the word `store` of crates/bench in plain Rust, over the same layout: words of 32 bytes in place,
// legs in an array, a vector of epochs for each object, each with a vector of cells.
use std::collections::HashMap;
use std::hash::{BuildHasherDefault, Hasher};
use std::time::Instant;

#[derive(Clone, Copy, PartialEq, Eq)]
struct Word {
    bytes: [u8; 32],
    len: u8,
}

impl std::hash::Hash for Word {
    fn hash<H: Hasher>(&self, state: &mut H) {
        state.write(self.text());
    }
}

impl Word {
    fn of(text: &[u8]) -> Word {
        let mut bytes = [0; 32];
        bytes[..text.len()].copy_from_slice(text);
        Word { bytes, len: text.len() as u8 }
    }

    fn text(&self) -> &[u8] {
        &self.bytes[..self.len as usize]
    }
}

#[derive(Default)]
struct Folded(u64);

impl Hasher for Folded {
    fn finish(&self) -> u64 {
        self.0
    }

    fn write(&mut self, bytes: &[u8]) {
        for piece in bytes.chunks(8) {
            let mut word = [0; 8];
            word[..piece.len()].copy_from_slice(piece);
            let mixed = u128::from(self.0 ^ u64::from_le_bytes(word)) * 0x9e37_79b9_7f4a_7c15_f39c_c060_5ced_c835;
            self.0 = mixed as u64 ^ (mixed >> 64) as u64;
        }
    }
}

type Names = HashMap<Word, u32, BuildHasherDefault<Folded>>;

#[derive(Clone, Copy, PartialEq, Eq)]
enum Kind {
    Num,
    Text,
    Dyn,
}

#[derive(Clone, Copy)]
struct Legs {
    firsts: [(i32, u32); 7],
    last: i32,
    count: u8,
}

impl Legs {
    fn steady(last: i32) -> Legs {
        Legs { firsts: [(0, 0); 7], last, count: 0 }
    }

    fn rest(&self, ticks: u32) -> Legs {
        let mut left = ticks;
        let mut legs = Legs::steady(self.last);
        for leg in &self.firsts[..self.count as usize] {
            if left < leg.1 {
                legs.firsts[legs.count as usize] = (leg.0, leg.1 - left);
                legs.count += 1;
                left = 0;
            } else {
                left -= leg.1;
            }
        }
        legs
    }

    fn rise(&self, ticks: u32) -> i64 {
        let mut left = ticks;
        let mut risen = 0;
        for leg in &self.firsts[..self.count as usize] {
            let here = left.min(leg.1);
            risen += i64::from(leg.0) * i64::from(here);
            left -= here;
        }
        risen + i64::from(self.last) * i64::from(left)
    }
}

#[derive(Clone, Copy)]
struct Vector {
    value: i64,
    updatetime: u32,
    function: Legs,
}

#[derive(Clone, Copy)]
enum Cell {
    Num(i64),
    Text(Word),
    Dyn(Vector),
}

#[derive(Clone, Copy)]
enum Given {
    Num(i64),
    Text(Word),
    Rate(Legs),
    Both(i64, Legs),
}

struct Named {
    name: Word,
    given: Given,
}

fn written(cell: &Cell, now: u32, given: &Given) -> Cell {
    match (cell, given) {
        (Cell::Num(_), Given::Num(n)) => Cell::Num(*n),
        (Cell::Text(_), Given::Text(w)) => Cell::Text(*w),
        (Cell::Dyn(v), Given::Num(n)) => Cell::Dyn(Vector {
            value: *n,
            updatetime: now,
            function: v.function.rest(now - v.updatetime),
        }),
        (Cell::Dyn(v), Given::Rate(f)) => Cell::Dyn(Vector {
            value: v.value + v.function.rise(now - v.updatetime),
            updatetime: now,
            function: *f,
        }),
        (Cell::Dyn(_), Given::Both(n, f)) => Cell::Dyn(Vector { value: *n, updatetime: now, function: *f }),
        _ => *cell,
    }
}

struct Epoch {
    from: u32,
    present: bool,
    cells: Vec<Cell>,
}

struct Object {
    class: u32,
    epochs: Vec<Epoch>,
}

struct Class {
    name: Word,
    capacity: u32,
    point: bool,
    attrs: Vec<(Word, Kind)>,
    ids: Vec<u32>,
}

struct Store {
    classes: Vec<Class>,
    class_names: Names,
    names: Names,
    objects: Vec<(Word, Object)>,
    last_tick: u32,
    changes: Vec<(usize, Given)>,
}

#[derive(Debug)]
enum Fault {
    UnknownName,
    NameTaken,
    WrongKind,
    Presence,
    ClassFull,
}

fn takes(kind: Kind, given: &Given) -> bool {
    matches!(
        (kind, given),
        (Kind::Num, Given::Num(_)) | (Kind::Text, Given::Text(_)) | (Kind::Dyn, Given::Num(_) | Given::Rate(_) | Given::Both(..))
    )
}

fn place_sets(at: Option<(i64, i64)>, moving: Option<(Legs, Legs)>) -> Option<[Named; 2]> {
    let (x, y) = match (at, moving) {
        (None, None) => return None,
        (Some((x, y)), None) => (Given::Num(x), Given::Num(y)),
        (None, Some((x, y))) => (Given::Rate(x), Given::Rate(y)),
        (Some((x, y)), Some((f, g))) => (Given::Both(x, f), Given::Both(y, g)),
    };
    Some([Named { name: Word::of(b"x"), given: x }, Named { name: Word::of(b"y"), given: y }])
}

fn attr_of(class: &Class, name: &Word) -> Option<usize> {
    class.attrs.iter().position(|attr| attr.0 == *name)
}

fn repeats(sets: &[Named], place: &Option<[Named; 2]>) -> bool {
    let placed = place.iter().flatten();
    for named in placed {
        if sets.iter().any(|set| set.name == named.name) {
            return true;
        }
    }
    (0..sets.len()).any(|i| sets[i + 1..].iter().any(|set| set.name == sets[i].name))
}

fn fault_of_sets(class: &Class, sets: &[Named], place: &Option<[Named; 2]>, elsewhere: bool) -> Option<Fault> {
    if sets.iter().any(|set| attr_of(class, &set.name).is_none()) {
        return Some(Fault::UnknownName);
    }
    if elsewhere || repeats(sets, place) {
        return Some(Fault::NameTaken);
    }
    let misfit = |set: &Named| attr_of(class, &set.name).is_some_and(|i| !takes(class.attrs[i].1, &set.given));
    if place.is_some() && !class.point || sets.iter().any(misfit) {
        return Some(Fault::WrongKind);
    }
    None
}

fn fill(changes: &mut Vec<(usize, Given)>, class: &Class, sets: &[Named], place: &Option<[Named; 2]>) {
    changes.clear();
    for set in place.iter().flatten().chain(sets) {
        if let Some(i) = attr_of(class, &set.name) {
            changes.push((i, set.given));
        }
    }
}

fn put(epochs: &mut Vec<Epoch>, epoch: Epoch) -> Option<Epoch> {
    match epochs.last_mut() {
        Some(last) if last.from == epoch.from => Some(std::mem::replace(last, epoch)),
        _ => {
            epochs.push(epoch);
            None
        }
    }
}

impl Store {
    fn insert(&mut self, now: u32, class: &Word, name: &Word, sets: &[Named], place: Option<[Named; 2]>) -> Result<(u32, Option<Epoch>), Fault> {
        let number = *self.class_names.get(class).ok_or(Fault::UnknownName)?;
        let known = self.names.get(name).copied();
        let kind = &self.classes[number as usize];
        let object = known.map(|id| &self.objects[id as usize].1);
        if let Some(fault) = fault_of_sets(kind, sets, &place, object.is_some_and(|o| o.class != number)) {
            return Err(fault);
        }
        if object.is_some_and(|o| o.epochs.last().is_some_and(|e| e.present)) {
            return Err(Fault::Presence);
        }
        if object.is_none() && kind.ids.len() >= kind.capacity as usize {
            return Err(Fault::ClassFull);
        }
        fill(&mut self.changes, kind, sets, &place);
        let still = Vector { value: 0, updatetime: now, function: Legs::steady(0) };
        let mut cells: Vec<Cell> = kind
            .attrs
            .iter()
            .map(|attr| match attr.1 {
                Kind::Num => Cell::Num(0),
                Kind::Text => Cell::Text(Word::of(b"")),
                Kind::Dyn => Cell::Dyn(still),
            })
            .collect();
        for change in &self.changes {
            cells[change.0] = written(&cells[change.0], now, &change.1);
        }
        let epoch = Epoch { from: now, present: true, cells };
        self.last_tick = now;
        match known {
            Some(id) => Ok((id, put(&mut self.objects[id as usize].1.epochs, epoch))),
            None => {
                let id = self.objects.len() as u32;
                self.classes[number as usize].ids.push(id);
                self.names.insert(*name, id);
                let mut epochs = Vec::new();
                put(&mut epochs, epoch);
                self.objects.push((*name, Object { class: number, epochs }));
                Ok((id, None))
            }
        }
    }

    fn update(&mut self, now: u32, name: &Word, sets: &[Named], place: Option<[Named; 2]>) -> Result<(u32, Option<Epoch>), Fault> {
        let id = *self.names.get(name).ok_or(Fault::UnknownName)?;
        let object = &mut self.objects[id as usize].1;
        let class = &self.classes[object.class as usize];
        if let Some(fault) = fault_of_sets(class, sets, &place, false) {
            return Err(fault);
        }
        let Some(last) = object.epochs.last().filter(|e| e.present) else {
            return Err(Fault::Presence);
        };
        fill(&mut self.changes, class, sets, &place);
        let mut cells = last.cells.clone();
        for change in &self.changes {
            cells[change.0] = written(&cells[change.0], now, &change.1);
        }
        self.last_tick = now;
        Ok((id, put(&mut object.epochs, Epoch { from: now, present: true, cells })))
    }

    fn at(&self, id: u32, t: u32) -> Option<&Epoch> {
        let epochs = &self.objects[id as usize].1.epochs;
        match epochs.partition_point(|epoch| epoch.from <= t) {
            0 => None,
            count => epochs.get(count - 1),
        }
    }
}

fn next(state: u64) -> u64 {
    state.wrapping_mul(6_364_136_223_846_793_005).wrapping_add(1_442_695_040_888_963_407)
}

fn report(name: &str, begun: Instant, count: u64) {
    if count > 0 {
        eprintln!("{name} {} ns", begun.elapsed().as_nanos() / u128::from(count));
    }
}

fn main() {
    let words: Vec<String> = std::env::args().collect();
    let count: u32 = words[2].parse().unwrap();
    let rounds: u32 = words[3].parse().unwrap();
    let names: Vec<Word> = (0..count).map(|n| Word::of(n.to_string().as_bytes())).collect();
    let car = Word::of(b"car");
    let attrs = vec![(Word::of(b"x"), Kind::Dyn), (Word::of(b"y"), Kind::Dyn)];
    let mut store = Store {
        classes: vec![Class { name: car, capacity: 100_000, point: true, attrs, ids: Vec::new() }],
        class_names: Names::default(),
        names: Names::default(),
        objects: Vec::new(),
        last_tick: 0,
        changes: Vec::new(),
    };
    let only = store.classes[0].name;
    store.class_names.insert(only, 0);

    let begun = Instant::now();
    for name in &names {
        store.insert(0, &car, name, &[], None).unwrap();
    }
    report("insert", begun, u64::from(count));

    let begun = Instant::now();
    for round in 0..rounds {
        let now = round + 1;
        let mut at = 0;
        for _ in 0..names.len() {
            at = (at + 7919) % names.len();
            let legs = Legs::steady((now % 1000) as i32);
            let place = place_sets(Some((i64::from(now), i64::from(now))), Some((legs, legs)));
            store.update(now, &names[at], &[], place).unwrap();
        }
    }
    let writes = u64::from(count) * u64::from(rounds);
    report("update", begun, writes);

    let begun = Instant::now();
    let mut state = 1;
    let mut sum = 0u64;
    for _ in 0..writes {
        state = next(state);
        let id = (state >> 33) as u32 % count.max(1);
        state = next(state);
        let t = (state >> 33) as u32 % (rounds + 1);
        if let Some(epoch) = store.at(id, t) {
            sum = sum.wrapping_add(u64::from(epoch.from));
        }
    }
    report("read", begun, writes);
    let objects = store.objects.len();
    println!("{objects} objects, sum {sum}");
    std::process::exit(if store.last_tick > rounds { 1 } else { 0 });
}
