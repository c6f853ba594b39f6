//! Causal paths over a list of events, by their definition.
//!
//! The list is in the order of acceptance, and this order decides: an event
//! never follows one accepted after it, whatever their times. Equal events at
//! different places of the list are different events.

use crate::record::Event;
use std::collections::BTreeSet;

/// The entities to which a causal path of these events leads from `start`,
/// the empty path included.
pub fn reached_from(start: u16, events: &[Event]) -> BTreeSet<u16> {
    let first = |place: usize| events[place].source == start;
    let step = |old: usize, new: usize| comes_next(events, old, new);
    let on_path = close(events.len(), first, step);
    let ends = on_path.into_iter().map(|place| events[place].target);
    ends.chain([start]).collect()
}

/// The entities from which a causal path of these events leads to `end`, the
/// empty path included.
pub fn leading_to(end: u16, events: &[Event]) -> BTreeSet<u16> {
    let last = |place: usize| events[place].target == end;
    let step = |old: usize, new: usize| comes_next(events, new, old);
    let on_path = close(events.len(), last, step);
    let starts = on_path.into_iter().map(|place| events[place].source);
    starts.chain([end]).collect()
}

/// Whether the event at one place may come next after that at another on a
/// causal path: it was accepted after the other and starts where that ended.
fn comes_next(events: &[Event], before: usize, after: usize) -> bool {
    before < after && events[before].target == events[after].source
}

/// The places, of so many, that begin a path, and those a step joins to a
/// place already found, until none is added.
fn close(
    places: usize,
    begins: impl Fn(usize) -> bool,
    step: impl Fn(usize, usize) -> bool,
) -> BTreeSet<usize> {
    let mut found = BTreeSet::new();
    loop {
        let joins = |place: usize| begins(place) || found.iter().any(|old| step(*old, place));
        let is_new = |place: &usize| !found.contains(place) && joins(*place);
        let new: Vec<usize> = (0..places).filter(is_new).collect();
        if new.is_empty() {
            return found;
        }
        found.extend(new);
    }
}
