//! What several tests use.

use reference::sound::{broken_clauses, Clause};
use reference::{worked_file, BackwardAnswer, Capacity, Event, Forward, FullList};
use reference::{TableLengths, Tables};
use std::collections::BTreeSet;

/// A fresh trail with this many rows in each table.
pub fn fresh(rows: usize) -> Tables {
    Tables::fresh(TableLengths::of_rows(rows, rows, rows))
}

/// The tables of the worked trail.
pub fn worked_tables() -> Tables {
    grown(&worked_file())
}

/// The full list of the worked trail.
pub fn worked_list() -> FullList {
    let mut list = FullList::new();
    let capacity = Capacity::of(TableLengths::of_rows(10, 10, 10));
    assert_eq!(list.batch(capacity, &worked_file()).refusal, 0);
    list
}

/// The clauses broken by a change of the worked tables.
pub fn broken_by(change: impl Fn(&mut Tables)) -> Vec<Clause> {
    let mut tables = worked_tables();
    change(&mut tables);
    broken_clauses(tables.view())
}

/// The tables after a file taken in whole.
pub fn grown(file: &[u8]) -> Tables {
    let mut tables = fresh(100);
    assert_eq!(tables.batch(file).refusal, 0);
    tables
}

/// A backward trace with buffers of the right lengths: the answer, the work
/// buffer and the mark buffer.
pub fn backward(tables: &Tables, entity: u32, time: u32) -> (BackwardAnswer, Vec<u8>, Vec<u8>) {
    let (mut work, mut marks) = buffers(tables);
    let answer = tables.backward(entity, time, &mut work, &mut marks);
    (answer, work, marks)
}

/// A forward trace with buffers of the right lengths.
pub fn forward(tables: &Tables, members: &[u32], time: u32) -> Forward {
    let (mut work, mut marks) = buffers(tables);
    let answer = tables.forward(members, time, &mut work, &mut marks);
    Forward {
        answer,
        work,
        marks,
    }
}

fn buffers(tables: &Tables) -> (Vec<u8>, Vec<u8>) {
    let work = vec![7; tables.counts.versions as usize];
    let marks = vec![7; tables.counts.entities as usize];
    (work, marks)
}

/// The numbers of the signed objects.
pub fn signed(tables: &Tables) -> Vec<u32> {
    let numbers = 0..tables.counts.entities;
    let is_signed = |number: &u32| tables.view().entity(*number).sort == 2;
    numbers.filter(is_signed).collect()
}

/// The kept log of the tables.
pub fn log_of(tables: &Tables) -> Vec<u8> {
    let rows = (tables.counts.entities + tables.counts.edges) as usize;
    let mut out = vec![0; 8 + 12 * (rows + signed(tables).len())];
    let answer = tables.kept_log(&mut out);
    assert_eq!((answer.refusal, answer.length as usize), (0, out.len()));
    out
}

/// Every time up to the last and some after it.
pub fn times(last: u32) -> impl Iterator<Item = u32> {
    (0..=last + 1).chain([u32::MAX])
}

/// The times of the events, those just before and after, the first and the
/// last time of all.
pub fn times_around(events: &[Event]) -> BTreeSet<u32> {
    let around = |event: &Event| {
        let time = event.time;
        [time - 1, time, time.saturating_add(1)]
    };
    let times = events.iter().flat_map(around);
    times.chain([0, u32::MAX]).collect()
}

/// The entities that a mark buffer marks.
pub fn marks_of(marks: &[u8]) -> Vec<u32> {
    let numbered = (0..).zip(marks);
    let marked = numbered.filter(|(_, mark)| **mark == 1);
    marked.map(|(entity, _)| entity).collect()
}
