//! Tables a caller owns.

use crate::answers::{BackwardAnswer, BatchAnswer, Counts, ForwardAnswer, LogAnswer};
use crate::batch::batch;
use crate::capacity::TableLengths;
use crate::kept_log::kept_log;
use crate::rows::{write_row, EdgeRow, EntityRow, VersionRow};
use crate::table_view::TableView;
use crate::trace::{backward, forward};

/// The counts and the three tables, with the calls as methods.
#[derive(Clone, Debug, PartialEq, Eq)]
pub struct Tables {
    pub counts: Counts,
    pub entities: Vec<u32>,
    pub versions: Vec<u32>,
    pub edges: Vec<u32>,
}

impl Tables {
    /// A fresh trail in tables of these lengths.
    pub fn fresh(lengths: TableLengths) -> Tables {
        Tables {
            counts: Counts::FRESH,
            entities: vec![0; lengths.entities],
            versions: vec![0; lengths.versions],
            edges: vec![0; lengths.edges],
        }
    }

    /// Tables of exactly these rows.
    pub fn of_rows(
        entities: &[EntityRow],
        versions: &[VersionRow],
        edges: &[EdgeRow],
        accepted: u32,
        last: u32,
    ) -> Tables {
        Tables {
            counts: Counts {
                entities: entities.len() as u32,
                versions: versions.len() as u32,
                edges: edges.len() as u32,
                accepted,
                last,
            },
            entities: entities.iter().flat_map(|row| row.numbers()).collect(),
            versions: versions.iter().flat_map(|row| row.numbers()).collect(),
            edges: edges.iter().flat_map(|row| row.numbers()).collect(),
        }
    }

    pub fn view(&self) -> TableView<'_> {
        TableView {
            counts: self.counts,
            entities: &self.entities,
            versions: &self.versions,
            edges: &self.edges,
        }
    }

    /// Writes an entity row.
    pub fn set_entity(&mut self, number: u32, row: EntityRow) {
        write_row(&mut self.entities, number, row.numbers());
    }

    /// Writes a version row.
    pub fn set_version(&mut self, number: u32, row: VersionRow) {
        write_row(&mut self.versions, number, row.numbers());
    }

    /// Writes an edge row.
    pub fn set_edge(&mut self, number: u32, row: EdgeRow) {
        write_row(&mut self.edges, number, row.numbers());
    }

    pub fn batch(&mut self, file: &[u8]) -> BatchAnswer {
        batch(
            &mut self.counts,
            &mut self.entities,
            &mut self.versions,
            &mut self.edges,
            file,
        )
    }

    pub fn backward(
        &self,
        entity: u32,
        time: u32,
        work: &mut [u8],
        marks: &mut [u8],
    ) -> BackwardAnswer {
        backward(
            self.counts,
            &self.entities,
            &self.versions,
            &self.edges,
            entity,
            time,
            work,
            marks,
        )
    }

    pub fn forward(
        &self,
        members: &[u32],
        time: u32,
        work: &mut [u8],
        marks: &mut [u8],
    ) -> ForwardAnswer {
        forward(
            self.counts,
            &self.entities,
            &self.versions,
            &self.edges,
            members,
            time,
            work,
            marks,
        )
    }

    pub fn kept_log(&self, out: &mut [u8]) -> LogAnswer {
        kept_log(
            self.counts,
            &self.entities,
            &self.versions,
            &self.edges,
            out,
        )
    }
}
