// Classes, and objects with all their epochs.
use crate::Refusal;
use crate::read::{AttrKind, Given, Legs, Place, Set};
use std::collections::HashMap;
use std::hash::{BuildHasherDefault, Hasher};

const CLASSES: usize = 64;

type Name = Box<[u8]>;
type Names<T> = HashMap<Name, T, BuildHasherDefault<Fnv>>;

/// The hash of Fowler, Noll and Vo, which is quick for short names.
struct Fnv(u64);

impl Default for Fnv {
    fn default() -> Fnv {
        Fnv(0xcbf2_9ce4_8422_2325)
    }
}

impl Hasher for Fnv {
    fn write(&mut self, bytes: &[u8]) {
        for byte in bytes {
            self.0 = (self.0 ^ u64::from(*byte)).wrapping_mul(0x100_0000_01b3);
        }
    }

    fn write_usize(&mut self, number: usize) {
        self.0 = (self.0 ^ number as u64).wrapping_mul(0x100_0000_01b3);
    }

    fn finish(&self) -> u64 {
        self.0
    }
}

#[derive(Clone)]
pub struct Dynamic {
    value: i64,
    updatetime: u32,
    legs: Legs,
}

#[derive(Clone)]
pub enum Cell {
    Num(i64),
    Text(Name),
    Dyn(Dynamic),
}

pub struct Class {
    capacity: usize,
    point: bool,
    attrs: Vec<(Name, AttrKind)>,
    /// The objects ever inserted, by first insertion.
    objects: Vec<u32>,
}

/// What an object has from a tick on; no cells while it is absent.
struct Epoch {
    from: u32,
    cells: Option<Vec<Cell>>,
}

struct Object {
    class: usize,
    epochs: Vec<Epoch>,
}

#[derive(Default)]
pub struct Store {
    classes: Vec<Class>,
    class_names: Names<usize>,
    objects: Vec<Object>,
    object_names: Names<u32>,
}

impl Dynamic {
    fn value_at(&self, tick: u32) -> i64 {
        let (mut value, mut left) = (self.value, tick - self.updatetime);
        for (slope, ticks) in &self.legs.firsts {
            let here = left.min(*ticks);
            value += slope * i64::from(here);
            left -= here;
        }
        value + self.legs.last * i64::from(left)
    }

    fn legs_at(&mut self, tick: u32) -> Legs {
        let mut left = tick - self.updatetime;
        let mut legs = std::mem::take(&mut self.legs);
        legs.firsts.retain_mut(|(_, ticks)| {
            let here = left.min(*ticks);
            left -= here;
            *ticks -= here;
            *ticks > 0
        });
        legs
    }
}

impl Cell {
    fn new(kind: AttrKind, now: u32) -> Cell {
        match kind {
            AttrKind::Num => Cell::Num(0),
            AttrKind::Text => Cell::Text(Name::default()),
            AttrKind::Dyn => Cell::Dyn(Dynamic { value: 0, updatetime: now, legs: Legs::default() }),
        }
    }

    fn write(&mut self, now: u32, value: Option<i64>, legs: Option<&Legs>) {
        match self {
            Cell::Num(number) => *number = value.unwrap_or(*number),
            Cell::Dyn(dynamic) => {
                let value = value.unwrap_or_else(|| dynamic.value_at(now));
                let legs = legs.cloned().unwrap_or_else(|| dynamic.legs_at(now));
                *dynamic = Dynamic { value, updatetime: now, legs };
            }
            Cell::Text(_) => {}
        }
    }

    fn set(&mut self, now: u32, given: &Given) {
        match (self, given) {
            (Cell::Text(text), Given::Text(bytes)) => *text = (*bytes).into(),
            (cell, Given::Num(value)) => cell.write(now, Some(*value), None),
            (cell, Given::Rate(legs)) => cell.write(now, None, Some(legs)),
            (cell, Given::Both(value, legs)) => cell.write(now, Some(*value), Some(legs)),
            (_, Given::Text(_)) => {}
        }
    }
}

impl Class {
    fn attribute(&self, name: &[u8]) -> Option<usize> {
        self.attrs.iter().position(|attr| *attr.0 == *name)
    }

    /// The first refusal of what an insert or an update sets, where `taken` says that the name is of another class.
    fn judge(&self, place: &Place, sets: &[Set], taken: bool) -> Result<(), Refusal> {
        if sets.iter().any(|set| self.attribute(set.name).is_none()) {
            return Err(Refusal::UnknownName);
        }
        let placed = place.at.is_some() || place.moving.is_some();
        let twice = sets.iter().enumerate().any(|(i, set)| {
            sets[..i].iter().any(|other| other.name == set.name) || placed && matches!(set.name, b"x" | b"y")
        });
        if taken || twice {
            return Err(Refusal::NameTaken);
        }
        let fits = |set: &Set| {
            let kind = self.attribute(set.name).map(|place| self.attrs[place].1);
            match set.given {
                Given::Num(_) => kind != Some(AttrKind::Text),
                Given::Text(_) => kind == Some(AttrKind::Text),
                Given::Rate(_) | Given::Both(..) => kind == Some(AttrKind::Dyn),
            }
        };
        if placed && !self.point || !sets.iter().all(fits) {
            return Err(Refusal::WrongKind);
        }
        Ok(())
    }

    fn write(&self, cells: &mut [Cell], now: u32, place: &Place, sets: &[Set]) {
        if self.point && (place.at.is_some() || place.moving.is_some()) {
            cells[0].write(now, place.at.map(|at| at.0), place.moving.as_ref().map(|legs| &legs.0));
            cells[1].write(now, place.at.map(|at| at.1), place.moving.as_ref().map(|legs| &legs.1));
        }
        for set in sets {
            if let Some(place) = self.attribute(set.name) {
                cells[place].set(now, &set.given);
            }
        }
    }
}

impl Object {
    fn is_present(&self) -> bool {
        self.epochs.last().is_some_and(|epoch| epoch.cells.is_some())
    }

    /// Begins an epoch, in place of one of the same tick.
    fn put(&mut self, from: u32, cells: Option<Vec<Cell>>) {
        match self.epochs.last_mut() {
            Some(last) if last.from == from => last.cells = cells,
            _ => self.epochs.push(Epoch { from, cells }),
        }
    }
}

impl Store {
    pub fn new_class(
        &self,
        name: &[u8],
        capacity: u32,
        point: bool,
        written: &[(&[u8], AttrKind)],
    ) -> Result<Class, Refusal> {
        let place: [(&[u8], AttrKind); 2] = [(b"x", AttrKind::Dyn), (b"y", AttrKind::Dyn)];
        let attrs: Vec<_> = place[..if point { 2 } else { 0 }].iter().chain(written).collect();
        let is_twice = |(i, attr): (usize, &&(&[u8], AttrKind))| attrs[..i].iter().any(|other| other.0 == attr.0);
        if self.class_names.contains_key(name) || attrs.iter().enumerate().any(is_twice) {
            return Err(Refusal::NameTaken);
        }
        if self.classes.len() == CLASSES {
            return Err(Refusal::StoreFull);
        }
        let attrs = attrs.into_iter().map(|(name, kind)| ((*name).into(), *kind)).collect();
        Ok(Class { capacity: capacity as usize, point, attrs, objects: Vec::new() })
    }

    pub fn add_class(&mut self, name: &[u8], class: Class) {
        self.class_names.insert(name.into(), self.classes.len());
        self.classes.push(class);
    }

    /// The number of the class, and that of the object where its name is known.
    pub fn judge_insert(
        &self,
        class: &[u8],
        name: &[u8],
        place: &Place,
        sets: &[Set],
    ) -> Result<(usize, Option<u32>), Refusal> {
        let number = *self.class_names.get(class).ok_or(Refusal::UnknownName)?;
        let class = &self.classes[number];
        let id = self.object_names.get(name).copied();
        let object = id.map(|id| &self.objects[id as usize]);
        class.judge(place, sets, object.is_some_and(|object| object.class != number))?;
        if object.is_some_and(Object::is_present) {
            return Err(Refusal::Presence);
        }
        if id.is_none() && class.objects.len() == class.capacity {
            return Err(Refusal::ClassFull);
        }
        Ok((number, id))
    }

    pub fn insert(&mut self, number: usize, id: Option<u32>, name: &[u8], now: u32, place: &Place, sets: &[Set]) {
        let class = &mut self.classes[number];
        let mut cells: Vec<Cell> = class.attrs.iter().map(|attr| Cell::new(attr.1, now)).collect();
        class.write(&mut cells, now, place, sets);
        match id {
            Some(id) => self.objects[id as usize].put(now, Some(cells)),
            None => {
                let id = self.objects.len() as u32;
                self.object_names.insert(name.into(), id);
                class.objects.push(id);
                self.objects.push(Object { class: number, epochs: vec![Epoch { from: now, cells: Some(cells) }] });
            }
        }
    }

    pub fn judge_update(&self, name: &[u8], place: &Place, sets: &[Set]) -> Result<u32, Refusal> {
        let id = *self.object_names.get(name).ok_or(Refusal::UnknownName)?;
        let object = &self.objects[id as usize];
        self.classes[object.class].judge(place, sets, false)?;
        if object.is_present() { Ok(id) } else { Err(Refusal::Presence) }
    }

    pub fn update(&mut self, id: u32, now: u32, place: &Place, sets: &[Set]) {
        let object = &mut self.objects[id as usize];
        let class = &self.classes[object.class];
        match object.epochs.last_mut() {
            Some(Epoch { from, cells: Some(cells) }) if *from == now => class.write(cells, now, place, sets),
            Some(Epoch { cells: Some(cells), .. }) => {
                let mut cells = cells.clone();
                class.write(&mut cells, now, place, sets);
                object.put(now, Some(cells));
            }
            _ => {}
        }
    }

    pub fn judge_remove(&self, name: &[u8]) -> Result<u32, Refusal> {
        let id = *self.object_names.get(name).ok_or(Refusal::UnknownName)?;
        if self.objects[id as usize].is_present() { Ok(id) } else { Err(Refusal::Presence) }
    }

    pub fn remove(&mut self, id: u32, now: u32) {
        self.objects[id as usize].put(now, None);
    }
}
