// All bindings of a query, or those of one object.
use super::evaluate::Binding;
use super::spans::Span;
use super::store::Store;
use crate::resolve::Query;

/// Calls `each` for each binding of present objects, in the order of FROM. A variable may be held to one object.
pub fn bindings(
    store: &Store,
    query: &Query,
    window: Span,
    held: [Option<usize>; 4],
    mut each: impl FnMut(&[usize], &Binding),
) {
    let count = query.classes.len();
    let range = |variable: usize| match held[variable] {
        Some(place) => place..place + 1,
        None => 0..store.classes[query.classes[variable]].names.len(),
    };
    let mut binding = Binding::new(store, window);
    let mut places = [0; 4];
    // one level for each variable; `places` has the next object of each
    let mut level = 0;
    places[0] = range(0).start;
    loop {
        if places[level] == range(level).end {
            if level == 0 {
                break;
            }
            level -= 1;
            places[level] += 1;
            continue;
        }
        let objects = &store.classes[query.classes[level]];
        if !objects.present[places[level]] {
            places[level] += 1;
            continue;
        }
        binding.bind(level, objects.cells(places[level]), objects.motions[places[level]]);
        if level + 1 < count {
            level += 1;
            places[level] = range(level).start;
            continue;
        }
        each(&places[..count], &binding);
        places[level] += 1;
    }
}
