//! Backward and forward traces over lent tables.

use crate::answers::{BackwardAnswer, Counts, ForwardAnswer};
use crate::refusal;
use crate::rows::NO_VERSION;
use crate::sound::is_sound;
use crate::table_view::TableView;
use std::collections::BTreeSet;

/// The backward trace from an entity at a time.
#[allow(clippy::too_many_arguments)]
pub fn backward(
    counts: Counts,
    entities: &[u32],
    versions: &[u32],
    edges: &[u32],
    entity: u32,
    time: u32,
    work: &mut [u8],
    marks: &mut [u8],
) -> BackwardAnswer {
    let view = TableView {
        counts,
        entities,
        versions,
        edges,
    };
    if let Err(refusal) = check_trace(view, &[entity], work.len(), marks.len()) {
        return BackwardAnswer { refusal, count: 0 };
    }
    let marked = backward_versions(view, entity, time);
    BackwardAnswer {
        refusal: refusal::NONE,
        count: write_marks(view, &marked, work, marks),
    }
}

/// The forward trace from a list of entities at a time: what any of them marks
/// alone, and the earliest of their intakes.
#[allow(clippy::too_many_arguments)]
pub fn forward(
    counts: Counts,
    entities: &[u32],
    versions: &[u32],
    edges: &[u32],
    members: &[u32],
    time: u32,
    work: &mut [u8],
    marks: &mut [u8],
) -> ForwardAnswer {
    let view = TableView {
        counts,
        entities,
        versions,
        edges,
    };
    if let Err(refusal) = check_trace(view, members, work.len(), marks.len()) {
        return ForwardAnswer {
            refusal,
            count: 0,
            intake: 0,
        };
    }
    let starts = start_versions(view, members, time);
    let marked = forward_versions(view, &starts);
    ForwardAnswer {
        refusal: refusal::NONE,
        count: write_marks(view, &marked, work, marks),
        intake: earliest_intake(view, &starts, time),
    }
}

/// Refusals 16, 5, 14.
fn check_trace(view: TableView, asked: &[u32], work: usize, marks: usize) -> Result<(), u32> {
    if !is_sound(view) {
        return Err(refusal::UNSOUND);
    }
    if asked.iter().any(|entity| *entity >= view.counts.entities) {
        return Err(refusal::UNDECLARED);
    }
    if marks < view.counts.entities as usize || work < view.counts.versions as usize {
        return Err(refusal::BUFFER);
    }
    Ok(())
}

/// The versions on the chain from the entity's latest through previous.
pub fn chain(view: TableView, entity: u32) -> Vec<u32> {
    let mut numbers = Vec::new();
    let mut number = view.entity(entity).latest;
    while number != NO_VERSION {
        numbers.push(number);
        number = view.version(number).previous;
    }
    numbers
}

/// The highest-numbered version on the chain with start at or before the time.
pub fn start_version(view: TableView, entity: u32, time: u32) -> u32 {
    let numbers = chain(view, entity).into_iter();
    let started = numbers.filter(|number| view.version(*number).start <= time);
    started.max().expect("in sound tables a chain ends at 0")
}

/// The start versions of the members.
fn start_versions(view: TableView, members: &[u32], time: u32) -> BTreeSet<u32> {
    let start = |entity: &u32| start_version(view, *entity, time);
    members.iter().map(start).collect()
}

/// Marks to which every edge and every version step adds until none changes.
fn backward_versions(view: TableView, entity: u32, time: u32) -> Vec<bool> {
    let start = start_version(view, entity, time);
    let mut marked = vec![false; view.counts.versions as usize];
    marked[start as usize] = true;
    loop {
        let before = marked.clone();
        for edge in (0..view.counts.edges).rev().map(|number| view.edge(number)) {
            let follow = edge.to != start || edge.time <= time;
            if marked[edge.to as usize] && follow {
                marked[edge.from as usize] = true;
            }
        }
        for number in (0..view.counts.versions).rev() {
            let previous = view.version(number).previous;
            if marked[number as usize] && previous != NO_VERSION {
                marked[previous as usize] = true;
            }
        }
        if marked == before {
            return marked;
        }
    }
}

/// The start versions, to which every edge and every version step adds marks
/// until none changes.
fn forward_versions(view: TableView, starts: &BTreeSet<u32>) -> Vec<bool> {
    let numbers = 0..view.counts.versions;
    let mut marked: Vec<bool> = numbers.map(|number| starts.contains(&number)).collect();
    loop {
        let before = marked.clone();
        for edge in view.edge_rows() {
            if marked[edge.from as usize] {
                marked[edge.to as usize] = true;
            }
        }
        for (number, version) in view.version_rows().enumerate() {
            if version.previous != NO_VERSION && marked[version.previous as usize] {
                marked[number] = true;
            }
        }
        if marked == before {
            return marked;
        }
    }
}

/// The earliest of the intakes, 0 if there is none.
fn earliest_intake(view: TableView, starts: &BTreeSet<u32>, time: u32) -> u32 {
    let intakes = starts.iter().map(|start| intake(view, *start, time));
    intakes.min().unwrap_or(0)
}

/// The greatest time at or before `time` of an edge entering the start
/// version, else the start of that version.
fn intake(view: TableView, start: u32, time: u32) -> u32 {
    let entering = view.edge_rows().filter(|edge| edge.to == start);
    let times = entering.map(|edge| edge.time);
    let in_by_time = times.filter(|edge_time| *edge_time <= time);
    in_by_time.max().unwrap_or(view.version(start).start)
}

/// Fills both buffers up to their counts and gives the number of entities
/// marked.
fn write_marks(view: TableView, marked: &[bool], work: &mut [u8], marks: &mut [u8]) -> u32 {
    for (number, is_marked) in marked.iter().enumerate() {
        work[number] = u8::from(*is_marked);
    }
    let mut count = 0;
    for entity in 0..view.counts.entities {
        let is_marked = has_marked_version(view, marked, entity);
        marks[entity as usize] = u8::from(is_marked);
        count += u32::from(is_marked);
    }
    count
}

fn has_marked_version(view: TableView, marked: &[bool], entity: u32) -> bool {
    let mut versions = view.version_rows().zip(marked);
    versions.any(|(version, is_marked)| *is_marked && version.entity == entity)
}
