// Rows of answers as text.
use super::evaluate::Buffers;
use super::grammar::put_count;
use super::join::joined;
use super::resolve::Query;
use super::spans::{Span, push};
use super::store::Store;
use std::collections::BTreeMap;

pub fn put_tuple(out: &mut Vec<u8>, store: &Store, query: &Query, key: &[usize]) {
    for (variable, place) in query.targets.iter().zip(key) {
        out.push(b' ');
        out.extend_from_slice(store.classes[query.classes[*variable]].names[*place].text());
    }
}

pub fn put_spans(out: &mut Vec<u8>, spans: &[Span]) {
    out.extend_from_slice(b" :");
    for (lo, hi) in spans {
        out.push(b' ');
        put_count(out, u64::from(*lo));
        out.extend_from_slice(b"..");
        put_count(out, u64::from(*hi));
    }
    out.push(b'\n');
}

/// A row of an answer; nothing where it has no ticks.
pub fn put_row(out: &mut Vec<u8>, store: &Store, query: &Query, key: &[usize], spans: &[Span]) {
    if spans.is_empty() {
        return;
    }
    let now = store.history.clock;
    out.extend_from_slice(match spans.iter().find(|span| now <= span.1) {
        Some((first, _)) if *first <= now => b"now",
        Some(_) => b"later",
        None => b"past",
    });
    put_tuple(out, store, query, key);
    put_spans(out, spans);
}

/// Makes one set of the spans of several bindings.
pub fn normalise(spans: &mut Vec<Span>, sorted: &mut Vec<Span>) {
    spans.sort_unstable();
    sorted.clear();
    spans.iter().for_each(|span| push(sorted, *span));
    std::mem::swap(spans, sorted);
}

/// Adds the rows of the query over the window. Where the targets are the first variables in their order, the
/// bindings of a row come one after the other; else the rows are gathered.
pub fn put_answer(store: &Store, query: &Query, window: Span, free: &mut Buffers, out: &mut Vec<u8>) {
    if query.targets.len() == query.classes.len() && query.targets.is_sorted() {
        joined(store, query, window, free, |key, spans| put_row(out, store, query, key, spans));
        return;
    }
    let count = query.targets.len();
    let (mut sum, mut sorted) = (Vec::new(), Vec::new());
    if query.targets.iter().enumerate().all(|(i, target)| i == *target) {
        let mut last: Vec<usize> = Vec::new();
        let mut flush = |last: &[usize], sum: &mut Vec<Span>| {
            normalise(sum, &mut sorted);
            put_row(out, store, query, last, sum);
            sum.clear();
        };
        joined(store, query, window, free, |key, spans| {
            if last != key[..count] {
                flush(&last, &mut sum);
                last.clear();
                last.extend_from_slice(&key[..count]);
            }
            sum.extend_from_slice(spans);
        });
        flush(&last, &mut sum);
        return;
    }
    let mut all: BTreeMap<Vec<usize>, Vec<Span>> = BTreeMap::new();
    joined(store, query, window, free, |key, spans| {
        let key = query.targets.iter().map(|target| key[*target]).collect();
        all.entry(key).or_default().extend_from_slice(spans);
    });
    for (key, mut sum) in all {
        normalise(&mut sum, &mut sorted);
        put_row(out, store, query, &key, &sum);
    }
}
