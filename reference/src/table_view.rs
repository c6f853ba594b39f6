//! Lent tables, to be read.

use crate::answers::Counts;
use crate::capacity::{Capacity, TableLengths, EDGE_ROW, ENTITY_ROW, VERSION_ROW};
use crate::rows::{EdgeRow, EntityRow, VersionRow};

/// The counts and the three tables, to be read only.
#[derive(Clone, Copy, Debug)]
pub struct TableView<'a> {
    pub counts: Counts,
    pub entities: &'a [u32],
    pub versions: &'a [u32],
    pub edges: &'a [u32],
}

impl<'a> TableView<'a> {
    pub fn lengths(&self) -> TableLengths {
        TableLengths {
            entities: self.entities.len(),
            versions: self.versions.len(),
            edges: self.edges.len(),
        }
    }

    pub fn capacity(&self) -> Capacity {
        Capacity::of(self.lengths())
    }

    pub fn entity(&self, number: u32) -> EntityRow {
        EntityRow::from_numbers(row(self.entities, ENTITY_ROW, number))
    }

    pub fn version(&self, number: u32) -> VersionRow {
        VersionRow::from_numbers(row(self.versions, VERSION_ROW, number))
    }

    pub fn edge(&self, number: u32) -> EdgeRow {
        EdgeRow::from_numbers(row(self.edges, EDGE_ROW, number))
    }

    /// The entity rows in use.
    pub fn entity_rows(self) -> impl Iterator<Item = EntityRow> + 'a {
        (0..self.counts.entities).map(move |number| self.entity(number))
    }

    /// The version rows in use.
    pub fn version_rows(self) -> impl Iterator<Item = VersionRow> + 'a {
        (0..self.counts.versions).map(move |number| self.version(number))
    }

    /// The edge rows in use.
    pub fn edge_rows(self) -> impl Iterator<Item = EdgeRow> + 'a {
        (0..self.counts.edges).map(move |number| self.edge(number))
    }

    /// How many events the edges stand for in all; 32 bits may not hold it.
    pub fn counted_events(self) -> u64 {
        self.edge_rows().map(|edge| u64::from(edge.count)).sum()
    }
}

fn row(table: &[u32], size: usize, number: u32) -> &[u32] {
    let first = number as usize * size;
    &table[first..first + size]
}
