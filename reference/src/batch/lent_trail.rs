//! The rows that a batch reads and writes.

use crate::answers::Counts;
use crate::record::Sort;
use crate::refusal;
use crate::rows::{write_row, EdgeRow, EntityRow, VersionRow};
use crate::table_view::TableView;

/// The lent counts and tables.
pub struct LentTrail<'a> {
    pub counts: &'a mut Counts,
    pub entities: &'a mut [u32],
    pub versions: &'a mut [u32],
    pub edges: &'a mut [u32],
}

impl LentTrail<'_> {
    pub fn view(&self) -> TableView<'_> {
        TableView {
            counts: *self.counts,
            entities: self.entities,
            versions: self.versions,
            edges: self.edges,
        }
    }

    /// Whether the entity is of this sort; a signed object is an object.
    pub fn has_sort(&self, entity: u32, sort: Sort) -> bool {
        self.view().entity(entity).declared_sort() == Some(sort)
    }

    pub fn latest(&self, entity: u16) -> u32 {
        self.view().entity(u32::from(entity)).latest
    }

    pub fn has_outgoing_edge(&self, version: u32) -> bool {
        self.view().edge_rows().any(|edge| edge.from == version)
    }

    pub fn check_version_row(&self) -> Result<(), u32> {
        if self.counts.versions as usize == self.view().capacity().versions {
            return Err(refusal::NO_VERSION_ROW);
        }
        Ok(())
    }

    pub fn check_edge_row(&self) -> Result<(), u32> {
        if self.counts.edges as usize == self.view().capacity().edges {
            return Err(refusal::NO_EDGE_ROW);
        }
        Ok(())
    }

    pub fn add_version(&mut self, row: VersionRow) -> u32 {
        let number = self.counts.versions;
        self.counts.versions += 1;
        self.set_version(number, row);
        number
    }

    pub fn add_edge(&mut self, row: EdgeRow) {
        let number = self.counts.edges;
        self.counts.edges += 1;
        self.set_edge(number, row);
    }

    pub fn set_entity(&mut self, number: u32, row: EntityRow) {
        write_row(self.entities, number, row.numbers());
    }

    pub fn set_version(&mut self, number: u32, row: VersionRow) {
        write_row(self.versions, number, row.numbers());
    }

    pub fn set_edge(&mut self, number: u32, row: EdgeRow) {
        write_row(self.edges, number, row.numbers());
    }
}
