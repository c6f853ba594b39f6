//! The worked trail: every cut and many damages of its file, every small
//! capacity, every length of its tables, all its traces.

use crate::calls::{small_lists, times_of};
use crate::comparison::{Compared, Comparison};
use reference::capacity::{EDGE_ROW, ENTITY_ROW, VERSION_ROW};
use reference::generate::lend_anew;
use reference::{worked_file, Random, TableLengths, Tables};

/// A fresh trail in tables of these lengths, which hold anything.
fn fresh(random: &mut Random, lengths: TableLengths) -> Tables {
    lend_anew(random, &Tables::fresh(lengths), lengths)
}

/// The tables of the worked trail.
pub fn worked_tables() -> Tables {
    let mut tables = Tables::fresh(TableLengths::of_rows(8, 9, 8));
    tables.batch(&worked_file());
    tables
}

pub fn worked_trail(comparison: &mut Comparison, random: &mut Random) -> Compared {
    cuts(comparison, random)?;
    damages(comparison, random)?;
    capacities(comparison, random)?;
    let tables = worked_tables();
    comparison.all_traces(random, &tables)?;
    lists(comparison, &tables)?;
    comparison.kept_logs(&tables)
}

/// The empty list, and small lists at each time.
fn lists(comparison: &mut Comparison, tables: &Tables) -> Compared {
    comparison.forward(tables, &[], tables.counts.last)?;
    for members in small_lists(tables.counts.entities) {
        for time in times_of(tables) {
            comparison.forward(tables, &members, time)?;
        }
    }
    Ok(())
}

fn cuts(comparison: &mut Comparison, random: &mut Random) -> Compared {
    let file = worked_file();
    for length in 0..=file.len() {
        let mut tables = fresh(random, TableLengths::of_rows(5, 6, 5));
        comparison.batch(&mut tables, file[..length].to_vec())?;
    }
    Ok(())
}

/// Each byte of the file with several other values.
fn damages(comparison: &mut Comparison, random: &mut Random) -> Compared {
    for place in 0..worked_file().len() {
        for other in [1, 2, 3, 4, 6, 8, 0x80, 0xFF] {
            let mut file = worked_file();
            file[place] ^= other;
            let mut tables = fresh(random, TableLengths::of_rows(5, 6, 5));
            comparison.batch(&mut tables, file)?;
        }
    }
    Ok(())
}

/// Every capacity up to one row more than the trail asks for, with a part row
/// at the end or not.
fn capacities(comparison: &mut Comparison, random: &mut Random) -> Compared {
    for entities in 0..=5 {
        for versions in 0..=6 {
            for edges in 0..=5 {
                let mut lengths = TableLengths::of_rows(entities, versions, edges);
                lengths.entities += random.below(ENTITY_ROW);
                lengths.versions += random.below(VERSION_ROW);
                lengths.edges += random.below(EDGE_ROW);
                comparison.batch(&mut fresh(random, lengths), worked_file())?;
            }
        }
    }
    Ok(())
}
