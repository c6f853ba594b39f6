//! How many events the edges stand for, in tables that no file gave.

use crate::random::Random;
use crate::rows::EdgeRow;
use crate::tables::Tables;

/// The most that each edge gets before some get the rest.
const FEW: u32 = 3;

/// Makes edges that stand for one event each stand for this many in all, with
/// any last times up to this one. There must be as many events as edges or
/// more, and none if there is no edge.
pub fn give_counts(random: &mut Random, rows: &mut [EdgeRow], accepted: u32, last: u32) {
    let mut rest = accepted - rows.len() as u32;
    if !random.one_in(3) {
        rest = add_few(random, rows, rest);
    }
    add_all(random, rows, rest);
    for row in rows {
        row.last = last_time(random, row.time, last);
    }
}

/// Adds a few events to each edge. Gives how many are left.
fn add_few(random: &mut Random, rows: &mut [EdgeRow], mut rest: u32) -> u32 {
    for row in rows {
        let part = random.between(0, rest.min(FEW));
        row.count += part;
        rest -= part;
    }
    rest
}

/// Adds all these events to one edge or to some.
pub fn add_all(random: &mut Random, rows: &mut [EdgeRow], mut rest: u32) {
    while rest > 0 {
        let part = match random.below(3) {
            0 => rest,
            _ => random.between(1, rest),
        };
        rows[random.below(rows.len())].count += part;
        rest -= part;
    }
}

/// A time not before that of the edge and not after the last.
fn last_time(random: &mut Random, time: u32, last: u32) -> u32 {
    match random.below(4) {
        0 => time,
        1 => last,
        _ => random.between(time, last),
    }
}

/// Raises accepted to this number, and the count of some edge by as much;
/// none if there is no edge.
pub fn raise_accepted(random: &mut Random, tables: &mut Tables, accepted: u32) -> Option<()> {
    let edge = any_edge(random, tables)?;
    let count = tables.view().edge(edge).count;
    set_count(tables, edge, count + (accepted - tables.counts.accepted));
    tables.counts.accepted = accepted;
    Some(())
}

/// Gives an edge another count.
pub fn set_count(tables: &mut Tables, edge: u32, count: u32) {
    let row = tables.view().edge(edge);
    tables.set_edge(edge, EdgeRow { count, ..row });
}

/// Gives all edges this count.
pub fn count_all(tables: &mut Tables, count: u32) {
    for edge in 0..tables.counts.edges {
        set_count(tables, edge, count);
    }
}

/// The number of some edge; none if there is no edge.
pub fn any_edge(random: &mut Random, tables: &Tables) -> Option<u32> {
    let edges = tables.counts.edges as usize;
    (edges > 0).then(|| random.below(edges) as u32)
}
