//! Joining a recording to a trail by names: its entities become those of the trail that have their names, or new ones.

mod lines;

pub use lines::{lines_of, Line};

use crate::names::Names;
use crate::recording::Recording;
use crate::shift::{Shift, TooLate};
use crate::state::State;
use std::collections::HashSet;
use trail::{DeclaredSort, EntityNo, EventFile, Record, Sort, Time};

/// A recording in the numbers and times of a trail.
#[derive(Debug)]
pub struct Joined {
    /// Cut before the first record that is too late.
    pub file: EventFile,
    /// For each of its records, the number that it has in the recording.
    pub original: Vec<u32>,
    pub names: Names,
    pub too_late: Option<TooLate>,
}

/// Joins a recording that a fresh trail takes in whole, with a line for each entity that it declares. New entities are declared
/// before all events, those of one base in the order of their making, so that the last made is the trail's latest.
pub fn join(state: &State, recording: &Recording, lines: &[Line], shift: Shift) -> Joined {
    let mut joiner = Joiner::new(state, lines);
    let mut joined = Joined {
        file: EventFile::new(),
        original: Vec::new(),
        names: Names::default(),
        too_late: None,
    };
    let records = records(recording);
    let mut declarations: Vec<(u32, u16, DeclaredSort)> = records
        .iter()
        .filter_map(|(number, record)| match record {
            Record::Declaration { entity, sort } => Some((*number, *entity, *sort)),
            _ => None,
        })
        .collect();
    let places = lines::in_order_of_making(lines);
    declarations.sort_by_key(|(_, entity, _)| places[usize::from(*entity)]);
    for (number, entity, sort) in declarations {
        if let Some(record) = joiner.declare(entity, sort) {
            joined.push(number, record);
        }
    }
    for (number, record) in records {
        match joiner.translated(record, shift) {
            Ok(None) => {}
            Ok(Some(record)) => joined.push(number, record),
            Err(time) => {
                joined.too_late = Some(TooLate {
                    record: number,
                    time,
                });
                break;
            }
        }
    }
    joined.names = joiner.names;
    joined
}

/// The records with their numbers.
fn records(recording: &Recording) -> Vec<(u32, Record)> {
    let record = |number| recording.record(number).expect("taken in by a fresh trail");
    (1..=recording.records())
        .map(|number| (number, record(number)))
        .collect()
}

impl Joined {
    fn push(&mut self, number: u32, record: Record) {
        self.file.push(record);
        self.original.push(number);
    }
}

/// Finds the trail's entity for each that the recording declares.
struct Joiner<'a> {
    state: &'a State,
    lines: &'a [Line<'a>],
    names: Names,
    /// The trail's number of each entity that was declared.
    numbers: Vec<EntityNo>,
    /// Entities of the trail that are one of the recording's.
    joined: HashSet<EntityNo>,
}

impl<'a> Joiner<'a> {
    fn new(state: &'a State, lines: &'a [Line]) -> Joiner<'a> {
        Joiner {
            state,
            lines,
            names: state.names.clone(),
            numbers: vec![EntityNo(0); lines.len()],
            joined: HashSet::new(),
        }
    }

    /// The declaration of a new entity; none for one that the trail has.
    fn declare(&mut self, entity: u16, sort: DeclaredSort) -> Option<Record> {
        let line = self.lines[usize::from(entity)];
        if let Some(known) = self.known(line, sort) {
            self.joined.insert(known);
            self.numbers[usize::from(entity)] = known;
            return None;
        }
        let new = self.names.push_made(line.base());
        self.numbers[usize::from(entity)] = new;
        Some(Record::Declaration {
            entity: number_in_file(new),
            sort,
        })
    }

    /// The entity of the trail that a line names.
    fn known(&self, line: Line, sort: DeclaredSort) -> Option<EntityNo> {
        let Line::Stood(base) = line else {
            return None;
        };
        let latest = *self.state.names.generations(base).last()?;
        let row = self.state.trail.entity(latest)?;
        let same_sort = row.sort.is_subject() == Sort::from(sort).is_subject();
        (same_sort && !self.joined.contains(&latest)).then_some(latest)
    }

    /// An event or signature in the numbers and times of the trail; none for a declaration, the time of an event that is too late.
    fn translated(&self, record: Record, shift: Shift) -> Result<Option<Record>, Time> {
        match record {
            Record::Declaration { .. } => Ok(None),
            Record::Signature { entity } => Ok(Some(Record::Signature {
                entity: self.number(entity),
            })),
            Record::Event {
                kind,
                source,
                target,
                time,
            } => Ok(Some(Record::Event {
                kind,
                source: self.number(source),
                target: self.number(target),
                time: shift.moved(time).ok_or(time)?,
            })),
        }
    }

    fn number(&self, entity: u16) -> u16 {
        number_in_file(self.numbers[usize::from(entity)])
    }
}

/// An entity's number in records. A trail has at most 4,096, and a recording declares no more.
fn number_in_file(entity: EntityNo) -> u16 {
    entity.0 as u16
}

#[cfg(test)]
mod properties;
#[cfg(test)]
mod tests;
