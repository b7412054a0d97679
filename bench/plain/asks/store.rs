// The present state of all objects in flat lists, one after the other by class, beside the history that judges and
// keeps the commands.
use crate::grammar::{Command, Word};
use crate::history::{Cell, History, Refusal};

/// How a point object moves: the values and slopes of x and y and the ticks of their writing.
#[derive(Clone, Copy, Default)]
pub struct Motion {
    pub value: (i64, i64),
    pub slope: (i32, i32),
    pub since: (u32, u32),
    /// Whether one slope each is all; else the cells have the legs.
    pub is_straight: bool,
}

impl Motion {
    fn of(cells: &[Cell]) -> Motion {
        let [Cell::Dyn(x), Cell::Dyn(y), ..] = cells else { return Motion::default() };
        Motion {
            value: (x.value, y.value),
            slope: (x.function.last, y.function.last),
            since: (x.updatetime, y.updatetime),
            is_straight: x.function.firsts.is_empty() && y.function.firsts.is_empty(),
        }
    }
}

#[derive(Default)]
pub struct Objects {
    /// The cells of all objects of the class, in order of first insertion.
    cells: Vec<Cell>,
    width: usize,
    pub motions: Vec<Motion>,
    pub present: Vec<bool>,
    pub names: Vec<Word>,
}

impl Objects {
    pub fn cells(&self, place: usize) -> &[Cell] {
        &self.cells[place * self.width..][..self.width]
    }
}

#[derive(Default)]
pub struct Store {
    pub history: History,
    pub classes: Vec<Objects>,
    /// The place of each object in its class.
    pub places: Vec<usize>,
}

/// The class and the place in it of an object.
pub type Place = (usize, usize);

impl Store {
    /// A command on data; where it writes an object, which one.
    pub fn apply(&mut self, command: Command) -> Result<Option<Place>, Refusal> {
        let name = match &command {
            Command::Insert(_, name, ..) | Command::Update(name, ..) | Command::Remove(name) => *name,
            Command::Class(..) => {
                self.history.make_class(command)?;
                let width = self.history.classes.last().map_or(0, |class| class.attrs.len());
                self.classes.push(Objects { width, ..Objects::default() });
                return Ok(None);
            }
            Command::Region(..) => return self.history.make_region(command).map(|()| None),
            _ => return self.history.tick(command).map(|()| None),
        };
        self.history.write(command)?;
        let id = self.history.object_names[&name] as usize;
        let object = &self.history.objects[id];
        let objects = &mut self.classes[object.class];
        let Some(place) = self.places.get(id) else {
            let place = objects.names.len();
            self.places.push(place);
            objects.names.push(name);
            objects.present.push(true);
            let cells = object.cells().unwrap_or_default();
            objects.motions.push(Motion::of(cells));
            objects.cells.extend_from_slice(cells);
            return Ok(Some((object.class, place)));
        };
        let width = objects.width;
        objects.present[*place] = object.cells().is_some();
        if let Some(cells) = object.cells() {
            objects.motions[*place] = Motion::of(cells);
            objects.cells[*place * width..][..width].clone_from_slice(cells);
        }
        Ok(Some((object.class, *place)))
    }
}
