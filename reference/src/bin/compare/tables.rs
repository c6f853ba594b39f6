//! Sound tables nobody grew, and unsound tables.

use crate::comparison::{Compared, Comparison};
use crate::worked_trail::worked_tables;
use reference::capacity::{EDGE_ROW, ENTITY_ROW, VERSION_ROW};
use reference::generate::{
    grown_tables, large_tables, sign_some, sound_tables, sound_tables_of_shape,
    tables_of_late_first_forks, unsound_tables, unsound_tables_by_one_number, Shape,
};
use reference::sound::Clause;
use reference::{Counts, Random, Tables};

const PER_SHAPE: usize = 20;
const PER_CLAUSE: usize = 10;
const BY_ONE_NUMBER: usize = 300;
const TRACED: usize = 150;
const MIDDLE_SIZED: usize = 6;

/// Tables of each shape that grown tables never have.
pub fn sound_shapes(comparison: &mut Comparison, random: &mut Random) -> Compared {
    for shape in Shape::ALL {
        for _ in 0..PER_SHAPE {
            let tables = sound_tables_of_shape(random, shape);
            comparison.each_call(random, &tables)?;
        }
    }
    Ok(())
}

/// All traces of sound tables nobody grew, small and middle-sized.
pub fn sound_traces(comparison: &mut Comparison, random: &mut Random) -> Compared {
    for _ in 0..TRACED {
        let tables = sound_tables(random);
        comparison.all_traces(random, &tables)?;
        comparison.kept_logs(&tables)?;
    }
    for _ in 0..MIDDLE_SIZED {
        let tables = middle_sized(random);
        comparison.all_traces(random, &tables)?;
        comparison.each_call(random, &tables)?;
    }
    Ok(())
}

fn middle_sized(random: &mut Random) -> Tables {
    let entities = random.between(2, 20);
    let versions = entities + random.between(0, 40);
    let edges = random.between(0, 60);
    let mut tables = large_tables(random, entities, versions, edges);
    sign_some(random, &mut tables);
    tables
}

/// Traces that need as many passes over the edges as there are versions.
pub fn many_passes(comparison: &mut Comparison, _: &mut Random) -> Compared {
    for count in [1, 2, 3, 4, 5, 16, 100, 700] {
        let tables = tables_of_late_first_forks(count);
        let last = tables.counts.last;
        let entities = [0, count / 2, count - 1];
        for time in [0, 1, last / 2, last, u32::MAX] {
            for entity in entities {
                comparison.traces(&tables, entity, time)?;
            }
            comparison.forward(&tables, &entities, time)?;
            comparison.forward(&tables, &entities[1..], time)?;
        }
        comparison.kept_logs(&tables)?;
    }
    Ok(())
}

/// Tables in which one clause does not hold.
pub fn unsound_clauses(comparison: &mut Comparison, random: &mut Random) -> Compared {
    for clause in Clause::ALL {
        for _ in 0..PER_CLAUSE {
            let tables = unsound_tables(random, clause);
            comparison.each_call(random, &tables)?;
        }
    }
    for _ in 0..BY_ONE_NUMBER {
        let tables = unsound_tables_by_one_number(random);
        comparison.each_call(random, &tables)?;
    }
    Ok(())
}

/// Each number in use of some tables with many other values, sound or not.
pub fn every_number(comparison: &mut Comparison, random: &mut Random) -> Compared {
    let mut all = vec![worked_tables()];
    all.push(grown_tables(random, 20));
    all.push(sound_tables(random));
    for tables in all {
        for place in 0..numbers(&mut tables.clone()).len() {
            for value in values(random, &tables, place) {
                let mut changed = tables.clone();
                *numbers(&mut changed)[place] = value;
                comparison.each_call(random, &changed)?;
            }
        }
    }
    Ok(())
}

/// The counts and the numbers of the rows in use.
fn numbers(tables: &mut Tables) -> Vec<&mut u32> {
    let Counts {
        entities,
        versions,
        edges,
        accepted,
        last,
    } = &mut tables.counts;
    let mut numbers: Vec<&mut u32> = Vec::new();
    numbers.extend(&mut tables.entities[..*entities as usize * ENTITY_ROW]);
    numbers.extend(&mut tables.versions[..*versions as usize * VERSION_ROW]);
    numbers.extend(&mut tables.edges[..*edges as usize * EDGE_ROW]);
    numbers.extend([entities, versions, edges, accepted, last]);
    numbers
}

/// Small numbers, some near the counts and the caps, some at the top, and some
/// that are small again where a row's first number is found in 32 bits.
fn values(random: &mut Random, tables: &Tables, place: usize) -> Vec<u32> {
    let number = *numbers(&mut tables.clone())[place];
    let counts = tables.counts;
    let mut values: Vec<u32> = (0..8).collect();
    values.extend([counts.entities, counts.versions, counts.edges, counts.last]);
    values.extend([number.wrapping_sub(1), number.wrapping_add(1)]);
    values.extend([1_000_000, 1_000_001, 1 << 30, (1 << 30) + 1, 1 << 31]);
    values.push(u32::MAX / EDGE_ROW as u32 + 1);
    values.extend([u32::MAX - 1, u32::MAX, random.number()]);
    values
}
