//! Unsound tables, one broken clause at a time.

use crate::capacity::{EDGE_ROW, ENTITY_ROW, VERSION_ROW};
use crate::generate::sound_tables::sound_tables;
use crate::generate::unsound_counts::break_events;
use crate::generate::unsound_edges::break_edge;
use crate::random::Random;
use crate::rows::NO_VERSION;
use crate::sound::{broken_clauses, Clause};
use crate::tables::Tables;

/// Tables in which this clause does not hold and all others do, but for one
/// other where it follows from them.
pub fn unsound_tables(random: &mut Random, clause: Clause) -> Tables {
    let most = 1 + usize::from(clause.follows_from_others());
    loop {
        let mut tables = sound_tables(random);
        break_clause(random, &mut tables, clause);
        let broken = broken_clauses(tables.view());
        if broken.contains(&clause) && broken.len() <= most {
            return tables;
        }
    }
}

/// Tables that are sound but for one number in a row in use or in the counts.
/// Several clauses may be broken.
pub fn unsound_tables_by_one_number(random: &mut Random) -> Tables {
    loop {
        let mut tables = sound_tables(random);
        change_one_number(random, &mut tables);
        if !broken_clauses(tables.view()).is_empty() {
            return tables;
        }
    }
}

fn change_one_number(random: &mut Random, tables: &mut Tables) {
    let counts = &mut tables.counts;
    let in_use = [counts.entities, counts.versions, counts.edges].map(|count| count as usize);
    let mut numbers: Vec<&mut u32> = Vec::new();
    numbers.extend(&mut tables.entities[..in_use[0] * ENTITY_ROW]);
    numbers.extend(&mut tables.versions[..in_use[1] * VERSION_ROW]);
    numbers.extend(&mut tables.edges[..in_use[2] * EDGE_ROW]);
    numbers.push(&mut counts.entities);
    numbers.push(&mut counts.versions);
    numbers.push(&mut counts.edges);
    numbers.push(&mut counts.accepted);
    numbers.push(&mut counts.last);
    let place = random.below(numbers.len());
    let number = numbers.swap_remove(place);
    *number = match random.below(4) {
        0 => random.number(),
        1 => number.wrapping_add(1),
        2 => number.wrapping_sub(1),
        _ => number_from(random, 0),
    };
}

/// Changes the tables so that the clause may no longer hold; none if they
/// have no row for it.
fn break_clause(random: &mut Random, tables: &mut Tables, clause: Clause) -> Option<()> {
    break_capacities(random, tables, clause)
        .or_else(|| break_entity(random, tables, clause))
        .or_else(|| break_version(random, tables, clause))
        .or_else(|| break_previous(random, tables, clause))
        .or_else(|| break_edge(random, tables, clause))
        .or_else(|| break_events(random, tables, clause))
}

fn break_capacities(random: &mut Random, tables: &mut Tables, clause: Clause) -> Option<()> {
    let counts = &mut tables.counts;
    match clause {
        Clause::EntitiesWithinCapacity => break_capacity(
            random,
            &mut counts.entities,
            &mut tables.entities,
            ENTITY_ROW,
        ),
        Clause::VersionsWithinCapacity => break_capacity(
            random,
            &mut counts.versions,
            &mut tables.versions,
            VERSION_ROW,
        ),
        Clause::EdgesWithinCapacity => {
            break_capacity(random, &mut counts.edges, &mut tables.edges, EDGE_ROW)
        }
        _ => None,
    }
}

/// Raises the count above the whole rows lent, or cuts the table so that its
/// last row in use is no longer whole.
fn break_capacity(
    random: &mut Random,
    count: &mut u32,
    table: &mut Vec<u32>,
    row: usize,
) -> Option<()> {
    if random.one_in(2) {
        *count = number_from(random, (table.len() / row) as u32 + 1);
    } else {
        let whole = some_row(*count)? * row;
        table.truncate(whole - 1 - random.below(row));
    }
    Some(())
}

fn break_entity(random: &mut Random, tables: &mut Tables, clause: Clause) -> Option<()> {
    let entity = random.below(some_row(tables.counts.entities)?) * ENTITY_ROW;
    match clause {
        Clause::SortIsZeroToTwo => tables.entities[entity] = number_from(random, 3),
        Clause::LatestExists => {
            tables.entities[entity + 1] = number_from(random, tables.counts.versions)
        }
        Clause::LatestIsOfThatEntity => tables.entities[entity + 1] = any_version(random, tables)?,
        _ => return None,
    }
    Some(())
}

fn break_version(random: &mut Random, tables: &mut Tables, clause: Clause) -> Option<()> {
    let number = any_version(random, tables)?;
    let first = number as usize * VERSION_ROW;
    let row = tables.view().version(number);
    match clause {
        Clause::VersionEntityExists => {
            tables.versions[first] = number_from(random, tables.counts.entities)
        }
        Clause::StartAtMostEnd => {
            tables.versions[first + 2] = random.below(some_row(row.start)?) as u32
        }
        Clause::EndAtMostLast => {
            tables.versions[first + 2] = number_from(random, tables.counts.last.checked_add(1)?)
        }
        _ => return None,
    }
    Some(())
}

/// Gives a version another previous or another start: for a start of 0 where
/// there is a previous, either; for a previous that starts later, often later
/// by one.
fn break_previous(random: &mut Random, tables: &mut Tables, clause: Clause) -> Option<()> {
    let number = any_version(random, tables)?;
    let previous = match clause {
        Clause::NoPreviousWhereStartIsZero
        | Clause::PreviousIsOfSameEntity
        | Clause::PreviousStartsNoLater => any_version(random, tables)?,
        Clause::PreviousWhereStartIsNotZero => NO_VERSION,
        Clause::PreviousHasLowerNumber => number_from(random, number),
        _ => return None,
    };
    let first = number as usize * VERSION_ROW;
    if clause == Clause::NoPreviousWhereStartIsZero && random.one_in(2) {
        tables.versions[first + 1] = 0;
        return Some(());
    }
    tables.versions[first + 3] = previous;
    if clause == Clause::PreviousStartsNoLater && random.one_in(2) {
        let start = tables.view().version(previous).start;
        tables.versions[first + 1] = start.checked_sub(1)?;
    }
    Some(())
}

/// The count, if it is not 0.
fn some_row(count: u32) -> Option<usize> {
    (count > 0).then_some(count as usize)
}

pub fn any_version(random: &mut Random, tables: &Tables) -> Option<u32> {
    Some(random.below(some_row(tables.counts.versions)?) as u32)
}

/// A number not below `low`, mostly close to it.
pub fn number_from(random: &mut Random, low: u32) -> u32 {
    match random.below(4) {
        0 => u32::MAX,
        1 => random.between(low, u32::MAX),
        _ => low.saturating_add(random.between(0, 2)),
    }
}
