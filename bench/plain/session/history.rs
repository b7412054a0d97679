// Journal, classes, objects with all their epochs, and regions: what the accepted commands imply at each tick.
use crate::grammar::{self, AttrKind, Command, Fault, Given, Legs, Place, Word};
use std::collections::HashMap;

pub const LAST_TICK: u32 = 1_000_000_000;
const CLASSES: usize = 64;
const REGIONS: usize = 1_024;
const ENTRIES: usize = 2_000_000;
const BYTES: usize = 268_435_456;

/// In the order in which the first one of a line is answered.
#[derive(Clone, Copy, Debug, PartialEq, Eq, PartialOrd, Ord)]
pub enum Refusal {
    LineTooLong = 1,
    NotAscii,
    BadToken,
    BadSyntax,
    NumberRange,
    TooLarge,
    UnknownName,
    NameTaken,
    WrongKind,
    NotConvex,
    TermRange,
    SpanRange,
    ClockEnd,
    Presence,
    ClassFull,
    StoreFull,
    BindingLimit,
    JournalFull,
    NoFile,
    BadFile,
}

impl From<Fault> for Refusal {
    fn from(fault: Fault) -> Refusal {
        match fault {
            Fault::TooLong => Refusal::LineTooLong,
            Fault::NotAscii => Refusal::NotAscii,
            Fault::BadToken => Refusal::BadToken,
            Fault::BadSyntax => Refusal::BadSyntax,
            Fault::NumberRange => Refusal::NumberRange,
            Fault::TooLarge => Refusal::TooLarge,
        }
    }
}

/// Canonical lines, one after the other, each with its line feed.
#[derive(Clone, Default)]
pub struct Journal {
    pub lines: Vec<u8>,
    /// The tick of each entry and the place after its line.
    pub entries: Vec<(u32, u32)>,
}

impl Journal {
    pub fn enter(&mut self, tick: u32, command: &Command) -> Result<(), Refusal> {
        if self.entries.len() == ENTRIES {
            return Err(Refusal::JournalFull);
        }
        let before = self.lines.len();
        grammar::put_command(&mut self.lines, command);
        self.lines.push(b'\n');
        if self.lines.len() > BYTES {
            self.lines.truncate(before);
            return Err(Refusal::JournalFull);
        }
        self.entries.push((tick, self.lines.len() as u32));
        Ok(())
    }
}

fn rise(legs: &Legs, ticks: u32) -> i64 {
    let mut left = ticks;
    let mut risen = 0;
    for (slope, length) in &legs.firsts {
        let here = left.min(*length);
        risen += i64::from(*slope) * i64::from(here);
        left -= here;
    }
    risen + i64::from(legs.last) * i64::from(left)
}

pub fn rest(legs: &Legs, ticks: u32) -> Legs {
    let mut left = ticks;
    let mut firsts = Vec::new();
    for (slope, length) in &legs.firsts {
        if left < *length {
            firsts.push((*slope, length - left));
        }
        left = left.saturating_sub(*length);
    }
    Legs { firsts: firsts.into(), last: legs.last }
}

#[derive(Clone)]
pub struct Vector {
    pub value: i64,
    pub updatetime: u32,
    pub function: Legs,
}

impl Vector {
    pub fn at(&self, tick: u32) -> i64 {
        self.value + rise(&self.function, tick - self.updatetime)
    }

    /// The slope of the leg in force at the tick: at the tick at which a leg ends, the next one's.
    pub fn slope_at(&self, tick: u32) -> i32 {
        let mut left = tick - self.updatetime;
        for (slope, length) in &self.function.firsts {
            if left < *length {
                return *slope;
            }
            left -= length;
        }
        self.function.last
    }
}

#[derive(Clone)]
pub enum Cell {
    Num(i64),
    Text(Word),
    Dyn(Vector),
}

impl Cell {
    fn fresh(kind: AttrKind, now: u32) -> Cell {
        match kind {
            AttrKind::Num => Cell::Num(0),
            AttrKind::Text => Cell::Text(Word::EMPTY),
            AttrKind::Dyn => {
                let function = Legs { firsts: Box::default(), last: 0 };
                Cell::Dyn(Vector { value: 0, updatetime: now, function })
            }
        }
    }

    fn write(&mut self, now: u32, given: Given) {
        match (self, given) {
            (Cell::Num(number), Given::Num(given)) => *number = given,
            (Cell::Text(text), Given::Text(given)) => *text = given,
            (Cell::Dyn(vector), given) => {
                let (value, function) = match given {
                    Given::Num(value) => (value, rest(&vector.function, now - vector.updatetime)),
                    Given::Rate(function) => (vector.at(now), function),
                    Given::Both(value, function) => (value, function),
                    Given::Text(_) => unreachable!("a text for a number is refused"),
                };
                *vector = Vector { value, updatetime: now, function };
            }
            _ => unreachable!("a value of another kind is refused"),
        }
    }
}

fn takes(kind: AttrKind, given: &Given) -> bool {
    match given {
        Given::Num(_) => kind != AttrKind::Text,
        Given::Text(_) => kind == AttrKind::Text,
        Given::Rate(_) | Given::Both(..) => kind == AttrKind::Dyn,
    }
}

/// What an object has from a tick on; no cells while it is absent.
#[derive(Clone)]
pub struct Epoch {
    from: u32,
    cells: Option<Box<[Cell]>>,
}

#[derive(Clone)]
pub struct Object {
    pub name: Word,
    pub class: usize,
    epochs: Vec<Epoch>,
}

impl Object {
    /// What the object has after the last command; nothing while it is absent.
    pub fn cells(&self) -> Option<&[Cell]> {
        self.epochs.last()?.cells.as_deref()
    }

    /// What the object has at the tick, as that tick ended; nothing where it is absent.
    pub fn state(&self, tick: u32) -> Option<&[Cell]> {
        self.epochs.iter().rev().find(|epoch| epoch.from <= tick)?.cells.as_deref()
    }

    fn put(&mut self, epoch: Epoch) {
        match self.epochs.last_mut() {
            Some(last) if last.from == epoch.from => *last = epoch,
            _ => self.epochs.push(epoch),
        }
    }
}

#[derive(Clone)]
pub struct Class {
    pub name: Word,
    pub capacity: u32,
    pub point: bool,
    pub attrs: Vec<(Word, AttrKind)>,
    /// The objects ever inserted, by first insertion.
    pub objects: Vec<u32>,
}

impl Class {
    pub fn attribute(&self, name: &Word) -> Option<usize> {
        self.attrs.iter().position(|attr| attr.0 == *name)
    }

    /// The first refusal of settings in the order of the names, of what is named twice, and of kinds, where
    /// `taken` says that the object's name is of another class.
    fn judge(&self, place: &Place, sets: &[(Word, Given)], taken: bool) -> Result<(), Refusal> {
        if sets.iter().any(|set| self.attribute(&set.0).is_none()) {
            return Err(Refusal::UnknownName);
        }
        let placed = place.at.is_some() || place.moving.is_some();
        let twice = sets.iter().enumerate().any(|(i, set)| {
            sets[..i].iter().any(|other| other.0 == set.0) || placed && matches!(set.0.text(), b"x" | b"y")
        });
        if taken || twice {
            return Err(Refusal::NameTaken);
        }
        let fits = |set: &(Word, Given)| self.attribute(&set.0).is_some_and(|a| takes(self.attrs[a].1, &set.1));
        if placed && !self.point || !sets.iter().all(fits) {
            return Err(Refusal::WrongKind);
        }
        Ok(())
    }

    fn write(&self, cells: &mut [Cell], now: u32, place: Place, sets: Vec<(Word, Given)>) {
        let position = match (place.at, place.moving) {
            (None, None) => None,
            (Some((x, y)), None) => Some([Given::Num(x), Given::Num(y)]),
            (None, Some((x, y))) => Some([Given::Rate(x), Given::Rate(y)]),
            (Some(at), Some(moving)) => Some([Given::Both(at.0, moving.0), Given::Both(at.1, moving.1)]),
        };
        for (cell, given) in cells.iter_mut().zip(position.into_iter().flatten()) {
            cell.write(now, given);
        }
        for (name, given) in sets {
            if let Some(place) = self.attribute(&name) {
                cells[place].write(now, given);
            }
        }
    }
}

/// A convex polygon, counterclockwise.
#[derive(Clone)]
pub struct Region {
    pub name: Word,
    pub points: Vec<(i64, i64)>,
}

fn is_counterclockwise(points: &[(i64, i64)]) -> bool {
    let mut left = false;
    for (i, p) in points.iter().enumerate() {
        let q = points[(i + 1) % points.len()];
        if *p == q {
            return false;
        }
        for other in points {
            let cross =
                i128::from(q.0 - p.0) * i128::from(other.1 - p.1) - i128::from(q.1 - p.1) * i128::from(other.0 - p.0);
            if cross < 0 {
                return false;
            }
            left |= cross > 0;
        }
    }
    left
}

fn counterclockwise(mut points: Vec<(i64, i64)>) -> Option<Vec<(i64, i64)>> {
    if is_counterclockwise(&points) {
        return Some(points);
    }
    points.reverse();
    is_counterclockwise(&points).then_some(points)
}

#[derive(Clone, Default)]
pub struct History {
    pub clock: u32,
    pub journal: Journal,
    pub classes: Vec<Class>,
    pub class_names: HashMap<Word, usize>,
    pub objects: Vec<Object>,
    pub object_names: HashMap<Word, u32>,
    pub regions: Vec<Region>,
    pub region_names: HashMap<Word, usize>,
}

impl History {
    pub fn make_class(&mut self, command: Command) -> Result<(), Refusal> {
        let Command::Class(name, capacity, point, ref written) = command else { return Ok(()) };
        let mut attrs = Vec::new();
        if point {
            attrs.extend([b"x", b"y"].into_iter().filter_map(|name| Some((Word::of(name)?, AttrKind::Dyn))));
        }
        attrs.extend_from_slice(written);
        let twice = |(i, attr): (usize, &(Word, AttrKind))| attrs[..i].iter().any(|other| other.0 == attr.0);
        if self.class_names.contains_key(&name) || attrs.iter().enumerate().any(twice) {
            return Err(Refusal::NameTaken);
        }
        if self.classes.len() == CLASSES {
            return Err(Refusal::StoreFull);
        }
        self.journal.enter(self.clock, &command)?;
        self.class_names.insert(name, self.classes.len());
        self.classes.push(Class { name, capacity, point, attrs, objects: Vec::new() });
        Ok(())
    }

    pub fn make_region(&mut self, command: Command) -> Result<(), Refusal> {
        let Command::Region(name, ref points) = command else { return Ok(()) };
        if self.region_names.contains_key(&name) {
            return Err(Refusal::NameTaken);
        }
        let points = counterclockwise(points.clone()).ok_or(Refusal::NotConvex)?;
        if self.regions.len() == REGIONS {
            return Err(Refusal::StoreFull);
        }
        self.journal.enter(self.clock, &command)?;
        self.region_names.insert(name, self.regions.len());
        self.regions.push(Region { name, points });
        Ok(())
    }

    /// An `insert`, an `update` or a `remove`.
    pub fn write(&mut self, command: Command) -> Result<(), Refusal> {
        match command {
            Command::Insert(..) => self.insert(command),
            Command::Update(..) => self.update(command),
            _ => self.remove(command),
        }
    }

    fn insert(&mut self, command: Command) -> Result<(), Refusal> {
        let Command::Insert(class_name, name, ref place, ref sets) = command else { return Ok(()) };
        let number = *self.class_names.get(&class_name).ok_or(Refusal::UnknownName)?;
        let class = &mut self.classes[number];
        let id = self.object_names.get(&name).copied();
        let object = id.map(|id| &self.objects[id as usize]);
        class.judge(place, sets, object.is_some_and(|object| object.class != number))?;
        if object.is_some_and(|object| object.cells().is_some()) {
            return Err(Refusal::Presence);
        }
        if id.is_none() && class.objects.len() == class.capacity as usize {
            return Err(Refusal::ClassFull);
        }
        let now = self.clock;
        self.journal.enter(now, &command)?;
        let Command::Insert(_, _, place, sets) = command else { return Ok(()) };
        let mut cells: Box<[Cell]> = class.attrs.iter().map(|attr| Cell::fresh(attr.1, now)).collect();
        class.write(&mut cells, now, place, sets);
        let epoch = Epoch { from: now, cells: Some(cells) };
        match id {
            Some(id) => self.objects[id as usize].put(epoch),
            None => {
                let id = self.objects.len() as u32;
                self.object_names.insert(name, id);
                class.objects.push(id);
                self.objects.push(Object { name, class: number, epochs: vec![epoch] });
            }
        }
        Ok(())
    }

    fn update(&mut self, command: Command) -> Result<(), Refusal> {
        let Command::Update(name, ref place, ref sets) = command else { return Ok(()) };
        let id = *self.object_names.get(&name).ok_or(Refusal::UnknownName)?;
        let object = &mut self.objects[id as usize];
        let class = &self.classes[object.class];
        class.judge(place, sets, false)?;
        let now = self.clock;
        let cells = object.cells().ok_or(Refusal::Presence)?;
        let mut cells: Box<[Cell]> = cells.into();
        self.journal.enter(now, &command)?;
        let Command::Update(_, place, sets) = command else { return Ok(()) };
        class.write(&mut cells, now, place, sets);
        object.put(Epoch { from: now, cells: Some(cells) });
        Ok(())
    }

    fn remove(&mut self, command: Command) -> Result<(), Refusal> {
        let Command::Remove(name) = command else { return Ok(()) };
        let id = *self.object_names.get(&name).ok_or(Refusal::UnknownName)?;
        let object = &mut self.objects[id as usize];
        if object.cells().is_none() {
            return Err(Refusal::Presence);
        }
        self.journal.enter(self.clock, &command)?;
        object.put(Epoch { from: self.clock, cells: None });
        Ok(())
    }

    pub fn tick(&mut self, command: Command) -> Result<(), Refusal> {
        let Command::Tick(ticks) = command else { return Ok(()) };
        if ticks > LAST_TICK - self.clock {
            return Err(Refusal::ClockEnd);
        }
        self.journal.enter(self.clock, &command)?;
        self.clock += ticks;
        Ok(())
    }
}
