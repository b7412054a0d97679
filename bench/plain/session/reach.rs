// The nearest objects, and the rows of an index, by their definitions.
use super::history::{LAST_TICK, Refusal};
use super::live::{mark, put_answer, put_spans};
use super::meaning::{self, position};
use super::resolve::{Factor, Formula, Query, Unit};
use super::{Session, put};
use crate::grammar::{AttrKind, Word};

const NEAREST_SPAN: u32 = 1_000_000;
const NEAREST_BINDINGS: u64 = 1_000_000;
const INDEXES: usize = 16;
/// An index has 64 slices of 1,000 ticks.
const INDEX_TICKS: u32 = 64_000;

#[derive(Clone)]
pub struct Index {
    class: usize,
    attribute: usize,
    from: u32,
}

impl Index {
    fn last(&self) -> u32 {
        self.from + INDEX_TICKS - 1
    }
}

impl Session {
    pub fn nearest(&self, span: u32, k: u32, to: &Word, class: &Word, out: &mut Vec<u8>) -> Result<(), Refusal> {
        let history = &self.history;
        let to = *history.object_names.get(to).ok_or(Refusal::UnknownName)?;
        let class = &history.classes[*history.class_names.get(class).ok_or(Refusal::UnknownName)?];
        let center = &history.objects[to as usize];
        if !class.point || !history.classes[center.class].point {
            return Err(Refusal::WrongKind);
        }
        if span > NEAREST_SPAN || span > LAST_TICK - history.clock {
            return Err(Refusal::SpanRange);
        }
        if u64::from(class.capacity) * u64::from(class.capacity) > NEAREST_BINDINGS {
            return Err(Refusal::BindingLimit);
        }
        // the squared distance of an object other than the one asked about; none where one of them is absent
        let square = |id: u32, tick: u32| {
            let (p, q) = (position(center, tick)?, position(&history.objects[id as usize], tick)?);
            (id != to).then(|| (p.0 - q.0) * (p.0 - q.0) + (p.1 - q.1) * (p.1 - q.1))
        };
        for (place, id) in class.objects.iter().enumerate() {
            let is_near = |tick: u32| {
                let Some(own) = square(*id, tick) else { return false };
                let is_before = |(other, name): (usize, &u32)| {
                    square(*name, tick).is_some_and(|square| square < own || square == own && other < place)
                };
                class.objects.iter().enumerate().filter(|other| is_before(*other)).count() < k as usize
            };
            let runs = meaning::runs(history.clock, (history.clock..=history.clock + span).map(is_near));
            if !runs.is_empty() {
                let name = history.objects[*id as usize].name;
                put(out, format_args!("{} ", mark(&runs, history.clock)));
                out.extend_from_slice(name.text());
                out.extend_from_slice(b" :");
                put_spans(out, &runs);
                out.push(b'\n');
            }
        }
        Ok(())
    }

    fn attribute_of(&self, class: &Word, attribute: &Word) -> Result<(usize, usize), Refusal> {
        let class = *self.history.class_names.get(class).ok_or(Refusal::UnknownName)?;
        let attribute = self.history.classes[class].attribute(attribute).ok_or(Refusal::UnknownName)?;
        Ok((class, attribute))
    }

    fn index_of(&self, (class, attribute): (usize, usize)) -> Option<usize> {
        self.indexes.iter().position(|index| index.class == class && index.attribute == attribute)
    }

    /// The width of the strips changes no answer.
    pub fn make_index(&mut self, class: &Word, attribute: &Word) -> Result<(), Refusal> {
        let (class, attribute) = self.attribute_of(class, attribute)?;
        let now = self.history.clock;
        let old = self.index_of((class, attribute));
        if old.is_some_and(|place| self.indexes[place].last() >= now) {
            return Err(Refusal::NameTaken);
        }
        if self.history.classes[class].attrs[attribute].1 != AttrKind::Dyn {
            return Err(Refusal::WrongKind);
        }
        if INDEX_TICKS - 1 > LAST_TICK - now {
            return Err(Refusal::SpanRange);
        }
        let index = Index { class, attribute, from: now };
        match old {
            Some(place) => self.indexes[place] = index,
            None if self.indexes.len() == INDEXES => return Err(Refusal::StoreFull),
            None => self.indexes.push(index),
        }
        Ok(())
    }

    /// The objects whose attribute is from the least to the greatest number.
    pub fn range(
        &self,
        span: u32,
        names: (&Word, &Word),
        (least, greatest): (i64, i64),
        out: &mut Vec<u8>,
    ) -> Result<(), Refusal> {
        let (class, attribute) = self.attribute_of(names.0, names.1)?;
        let index = &self.indexes[self.index_of((class, attribute)).ok_or(Refusal::UnknownName)?];
        let now = self.history.clock;
        if u64::from(now) + u64::from(span) > u64::from(index.last()) {
            return Err(Refusal::SpanRange);
        }
        let compare = |op: u8, number: i64| {
            let term = |unit: Unit| vec![Factor { minus: false, times: 1, unit }];
            Box::new(Formula::Compare(term(Unit::Attr(0, attribute)), op, term(Unit::Literal(i128::from(number)))))
        };
        let formula = Formula::And(compare(4, least), compare(1, greatest));
        let query = Query { targets: vec![0], classes: vec![class], formula };
        let answer = meaning::answer(&self.history, &query, None, now, now + span);
        put_answer(out, &self.history, &query, &answer);
        Ok(())
    }
}
