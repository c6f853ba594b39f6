//! Table lengths, and tables lent anew at other lengths.

use crate::answers::Counts;
use crate::capacity::{TableLengths, EDGE_ROW, ENTITY_ROW, VERSION_ROW};
use crate::random::Random;
use crate::tables::Tables;

/// Lengths for the rows in use and up to `spare` rows more in each table,
/// with a part row at the end or not.
fn lengths_with_spare(random: &mut Random, counts: Counts, spare: usize) -> TableLengths {
    let mut length = |count: u32, row: usize| {
        let rows = count as usize + random.below(spare + 1);
        rows * row + random.below(row)
    };
    TableLengths {
        entities: length(counts.entities, ENTITY_ROW),
        versions: length(counts.versions, VERSION_ROW),
        edges: length(counts.edges, EDGE_ROW),
    }
}

/// Lengths for the rows in use and up to two rows more.
pub fn tiny_lengths(random: &mut Random, counts: Counts) -> TableLengths {
    lengths_with_spare(random, counts, 2)
}

/// Lengths for the rows in use and up to a dozen rows more.
pub fn odd_lengths(random: &mut Random, counts: Counts) -> TableLengths {
    lengths_with_spare(random, counts, 12)
}

/// Lengths that leave many rows in each table.
pub fn roomy_lengths(counts: Counts) -> TableLengths {
    TableLengths::of_rows(
        counts.entities as usize + 100,
        counts.versions as usize + 100,
        counts.edges as usize + 100,
    )
}

/// Any lengths at all, often too short for the rows in use.
pub fn any_lengths(random: &mut Random, counts: Counts) -> TableLengths {
    let most = odd_lengths(random, counts);
    TableLengths {
        entities: random.below(most.entities + 1),
        versions: random.below(most.versions + 1),
        edges: random.below(most.edges + 1),
    }
}

/// Every length from none to two rows past the count, for rows of this many
/// numbers.
pub fn every_length(count: u32, row: usize) -> Vec<usize> {
    (0..=(count as usize + 2) * row).collect()
}

/// Numbers after the rows in use: any, small ones, or those rows once more.
fn filling(random: &mut Random, in_use: &[u32], length: usize) -> Vec<u32> {
    match random.below(3) {
        0 if !in_use.is_empty() => in_use.iter().copied().cycle().take(length).collect(),
        1 => (0..length).map(|_| random.between(0, 7)).collect(),
        _ => random.numbers(length),
    }
}

/// The counts and the rows in use in tables of other lengths, the rest filled
/// with anything. Tables too short lose the rows at the end.
pub fn lend_anew(random: &mut Random, tables: &Tables, lengths: TableLengths) -> Tables {
    let mut table = |old: &[u32], in_use: usize, length: usize| {
        let kept = in_use.min(length).min(old.len());
        let mut table = old[..kept].to_vec();
        table.extend(filling(random, &old[..kept], length - kept));
        table
    };
    let counts = tables.counts;
    let entities = counts.entities as usize * ENTITY_ROW;
    let versions = counts.versions as usize * VERSION_ROW;
    let edges = counts.edges as usize * EDGE_ROW;
    Tables {
        counts,
        entities: table(&tables.entities, entities, lengths.entities),
        versions: table(&tables.versions, versions, lengths.versions),
        edges: table(&tables.edges, edges, lengths.edges),
    }
}
