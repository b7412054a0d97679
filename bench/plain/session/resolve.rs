// Names, kinds and bounds of a query: all faults are gathered, and the first by the order of the refusals counts.
use super::history::{Class, History, LAST_TICK, Refusal};
use crate::grammar::{self, AttrKind, Signed, Word};

const LONGEST_SPAN: u32 = 100_000_000;
const ASSIGNED_SPAN: u32 = 10_000;
const CIRCLE_SPAN: u32 = 100_000;
const BINDINGS: u64 = 1_000_000;
const TERM_BOUND: i128 = 1_000_000_000_000_000_000;

#[derive(Clone, Copy, PartialEq)]
pub enum Part {
    Value,
    UpdateTime,
    Function,
}

/// Object variables by their place in FROM, attributes by their place in the class, and bound values by the
/// number of assignments around their own.
#[derive(Clone)]
pub enum Unit {
    Literal(i128),
    Text(Word),
    Bound(usize),
    Attr(usize, usize),
    Sub(usize, usize, Part),
    Time,
}

#[derive(Clone)]
pub struct Factor {
    pub minus: bool,
    pub times: i128,
    pub unit: Unit,
}

pub type Term = Vec<Factor>;

#[derive(Clone)]
pub enum Formula {
    Truth(bool),
    Compare(Term, u8, Term),
    Inside(usize, usize),
    Outside(usize, usize),
    Dist(usize, usize, u8, i128),
    Sphere(i128, Vec<usize>),
    Not(Box<Formula>),
    And(Box<Formula>, Box<Formula>),
    Or(Box<Formula>, Box<Formula>),
    Next(Box<Formula>),
    /// At some tick from t and the first number to t and the second one.
    Some(u64, u64, Box<Formula>),
    /// At every tick from t to t and the number.
    Every(u64, Box<Formula>),
    /// The second formula at some tick from t and the first number to t and the second one, and the first formula
    /// at every tick from t to just before.
    Until(u64, u64, Box<Formula>, Box<Formula>),
    Assign(Term, Box<Formula>),
}

#[derive(Clone)]
pub struct Query {
    pub targets: Vec<usize>,
    /// The class of each variable.
    pub classes: Vec<usize>,
    pub formula: Formula,
}

impl Query {
    /// The product of the capacities of the variables' classes.
    pub fn bindings(&self, history: &History) -> u64 {
        self.classes.iter().map(|class| u64::from(history.classes[*class].capacity)).product()
    }
}

/// No end: past every tick.
const NEVER: u64 = u64::MAX / 2;

struct Scope<'a> {
    history: &'a History,
    from: &'a [(Word, Word)],
    /// The values bound around: name, whether it is a text, and bound.
    values: Vec<(Word, bool, i128)>,
    faults: Vec<Refusal>,
}

impl Scope<'_> {
    fn variable(&self, name: &Word) -> Option<usize> {
        self.from.iter().position(|part| part.1 == *name)
    }

    fn is_value(&self, name: &Word) -> bool {
        self.values.iter().any(|value| value.0 == *name)
    }

    /// The class of a variable; none where it isn't known, which is a fault by itself.
    fn class(&self, variable: usize) -> Option<&Class> {
        let number = self.history.class_names.get(&self.from[variable].0)?;
        Some(&self.history.classes[*number])
    }

    /// A variable in a spatial atom. Where there is a fault, the answer has no meaning; so below.
    fn spatial(&mut self, name: &Word) -> usize {
        let Some(variable) = self.variable(name) else {
            self.faults.push(if self.is_value(name) { Refusal::WrongKind } else { Refusal::UnknownName });
            return 0;
        };
        if self.class(variable).is_some_and(|class| !class.point) {
            self.faults.push(Refusal::WrongKind);
        }
        variable
    }

    fn region(&mut self, name: &Word) -> usize {
        let number = self.history.region_names.get(name).copied();
        if number.is_none() {
            self.faults.push(Refusal::UnknownName);
        }
        number.unwrap_or(0)
    }

    fn attribute(&mut self, name: &Word, attribute: &Word) -> Option<(usize, usize, AttrKind)> {
        let Some(variable) = self.variable(name) else {
            self.faults.push(if self.is_value(name) { Refusal::WrongKind } else { Refusal::UnknownName });
            return None;
        };
        let class = self.class(variable)?;
        let Some(place) = class.attribute(attribute) else {
            self.faults.push(Refusal::UnknownName);
            return None;
        };
        Some((variable, place, class.attrs[place].1))
    }

    /// The unit, whether it is a text, and its bound.
    fn unit(&mut self, unit: &grammar::Unit) -> (Unit, bool, i128) {
        const CLOCK: i128 = 1_000_000_000_000;
        const IMPLIED: i128 = 1_001_000_000_000_000;
        let nothing = (Unit::Time, false, 0);
        match unit {
            grammar::Unit::Literal(number) => (Unit::Literal(i128::from(*number)), false, i128::from(*number)),
            grammar::Unit::Text(text) => (Unit::Text(*text), true, 0),
            grammar::Unit::Time => (Unit::Time, false, CLOCK),
            grammar::Unit::Alone(name) => match self.values.iter().position(|value| value.0 == *name) {
                Some(place) => (Unit::Bound(place), self.values[place].1, self.values[place].2),
                None => {
                    let known = self.variable(name).is_some();
                    self.faults.push(if known { Refusal::WrongKind } else { Refusal::UnknownName });
                    nothing
                }
            },
            grammar::Unit::Attr(name, attribute) => match self.attribute(name, attribute) {
                Some((variable, place, AttrKind::Num)) => (Unit::Attr(variable, place), false, CLOCK),
                Some((variable, place, AttrKind::Text)) => (Unit::Attr(variable, place), true, 0),
                Some((variable, place, AttrKind::Dyn)) => (Unit::Attr(variable, place), false, IMPLIED),
                None => nothing,
            },
            grammar::Unit::Sub(name, attribute, part) => {
                let Some((variable, place, kind)) = self.attribute(name, attribute) else { return nothing };
                if kind != AttrKind::Dyn {
                    self.faults.push(Refusal::WrongKind);
                }
                let (part, bound) = match part {
                    22 => (Part::Value, IMPLIED),
                    23 => (Part::UpdateTime, CLOCK),
                    _ => (Part::Function, 1_000_000),
                };
                (Unit::Sub(variable, place, part), false, bound)
            }
        }
    }

    fn term(&mut self, term: &[Signed]) -> (Term, bool, i128) {
        let (mut all, mut is_text, mut bound) = (Term::new(), false, 0);
        for factor in term {
            let (unit, text, size) = self.unit(&factor.unit);
            if text && (term.len() > 1 || factor.minus || factor.times.is_some()) {
                self.faults.push(Refusal::WrongKind);
            }
            is_text |= text;
            let times = i128::from(factor.times.unwrap_or(1));
            bound += times * size;
            all.push(Factor { minus: factor.minus, times, unit });
        }
        if bound > TERM_BOUND {
            self.faults.push(Refusal::TermRange);
        }
        (all, is_text, bound)
    }

    fn formula(&mut self, formula: &grammar::Formula) -> Formula {
        let both = |scope: &mut Self, f: &grammar::Formula, g: &grammar::Formula| {
            (Box::new(scope.formula(f)), Box::new(scope.formula(g)))
        };
        match formula {
            grammar::Formula::Truth(truth) => Formula::Truth(*truth),
            grammar::Formula::Compare(left, op, right) => {
                let (left, left_text, _) = self.term(left);
                let (right, right_text, _) = self.term(right);
                if left_text != right_text || left_text && !matches!(op, 2 | 3) {
                    self.faults.push(Refusal::WrongKind);
                }
                Formula::Compare(left, *op, right)
            }
            grammar::Formula::Inside(inside, name, region) => {
                let (variable, region) = (self.spatial(name), self.region(region));
                if *inside { Formula::Inside(variable, region) } else { Formula::Outside(variable, region) }
            }
            grammar::Formula::Dist(a, b, op, number) => {
                Formula::Dist(self.spatial(a), self.spatial(b), *op, i128::from(*number))
            }
            grammar::Formula::Sphere(radius, names) => {
                let names = names.iter().map(|name| self.spatial(name)).collect();
                Formula::Sphere(i128::from(*radius), names)
            }
            grammar::Formula::And(f, g) => {
                let (f, g) = both(self, f, g);
                Formula::And(f, g)
            }
            grammar::Formula::Or(f, g) => {
                let (f, g) = both(self, f, g);
                Formula::Or(f, g)
            }
            grammar::Formula::Until(form, bound, f, g) => {
                let (f, g) = both(self, f, g);
                match form {
                    0 => Formula::Until(0, NEVER, f, g),
                    1 => Formula::Until(0, u64::from(*bound), f, g),
                    _ => Formula::Until(u64::from(*bound), NEVER, f, g),
                }
            }
            grammar::Formula::Unary(word, bound, f) => {
                let (f, bound) = (Box::new(self.formula(f)), u64::from(*bound));
                match word {
                    5 => Formula::Not(f),
                    11 => Formula::Next(f),
                    12 => Formula::Some(0, NEVER, f),
                    13 => Formula::Some(0, bound, f),
                    14 => Formula::Some(bound, NEVER, f),
                    15 => Formula::Every(NEVER, f),
                    _ => Formula::Every(bound, f),
                }
            }
            grammar::Formula::Assign(name, term, f) => {
                let (term, is_text, bound) = self.term(term);
                if self.variable(name).is_some() || self.is_value(name) {
                    self.faults.push(Refusal::NameTaken);
                }
                self.values.push((*name, is_text, bound));
                let f = self.formula(f);
                self.values.pop();
                Formula::Assign(term, Box::new(f))
            }
        }
    }
}

/// What a formula has somewhere in it.
pub fn has(formula: &Formula, is: &dyn Fn(&Formula) -> bool) -> bool {
    if is(formula) {
        return true;
    }
    match formula {
        Formula::And(f, g) | Formula::Or(f, g) | Formula::Until(_, _, f, g) => has(f, is) || has(g, is),
        Formula::Not(f) | Formula::Next(f) | Formula::Some(_, _, f) | Formula::Every(_, f) => has(f, is),
        Formula::Assign(_, f) => has(f, is),
        _ => false,
    }
}

/// The least refusal, if there is one.
pub fn first(faults: Vec<Refusal>) -> Result<(), Refusal> {
    match faults.into_iter().min() {
        Some(refusal) => Err(refusal),
        None => Ok(()),
    }
}

/// The resolved query, of no meaning where there are faults, and its faults by names, kinds, bounds and span, and
/// by the product of the capacities where the classes are known.
pub fn resolve(history: &History, query: &grammar::Query, span: u32) -> (Query, Vec<Refusal>) {
    let mut scope = Scope { history, from: &query.from, values: Vec::new(), faults: Vec::new() };
    let mut classes = Vec::new();
    for (i, (class, variable)) in query.from.iter().enumerate() {
        match history.class_names.get(class) {
            Some(number) => classes.push(*number),
            None => scope.faults.push(Refusal::UnknownName),
        }
        if query.from[..i].iter().any(|other| other.1 == *variable) {
            scope.faults.push(Refusal::NameTaken);
        }
    }
    let mut targets = Vec::new();
    for (i, target) in query.targets.iter().enumerate() {
        match scope.variable(target) {
            Some(variable) => targets.push(variable),
            None => scope.faults.push(Refusal::UnknownName),
        }
        if query.targets[..i].contains(target) {
            scope.faults.push(Refusal::NameTaken);
        }
    }
    let formula = scope.formula(&query.formula);
    let mut faults = scope.faults;
    let assigns = has(&formula, &|part| matches!(part, Formula::Assign(..)));
    let circles = has(&formula, &|part| matches!(part, Formula::Sphere(_, names) if names.len() > 2));
    let too_long = span > LONGEST_SPAN || assigns && span > ASSIGNED_SPAN || circles && span > CIRCLE_SPAN;
    if too_long || span > LAST_TICK - history.clock {
        faults.push(Refusal::SpanRange);
    }
    let query = Query { targets, classes, formula };
    if query.bindings(history) > BINDINGS {
        faults.push(Refusal::BindingLimit);
    }
    (query, faults)
}
