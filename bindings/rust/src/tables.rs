//! The three tables as numbers.

use crate::ffi::numbers_in;
use crate::{
    Counts, HeldFile, EDGE_WIDTH, ENTITY_WIDTH, MOST_EDGES, MOST_ENTITIES, MOST_VERSIONS,
    VERSION_WIDTH,
};
use std::ops::{Deref, Range};
use std::sync::Arc;

const ENTITY_NUMBERS: usize = ENTITY_WIDTH * MOST_ENTITIES as usize;
const VERSION_NUMBERS: usize = VERSION_WIDTH * MOST_VERSIONS as usize;
const EDGE_NUMBERS: usize = EDGE_WIDTH * MOST_EDGES as usize;

/// The tables. By default of no length: these stand in while a job has a trail's own. With the trail's counts, which stay, they
/// cannot be taken for its own: reading a row panics.
#[derive(Debug, Default)]
pub struct Tables {
    pub entities: Numbers,
    pub versions: Numbers,
    pub edges: Numbers,
}

/// The numbers of a table: a vector's, or where they stand in a file.
#[derive(Debug)]
pub enum Numbers {
    Own(Vec<u32>),
    InFile(Arc<HeldFile>, Range<usize>),
}

impl Tables {
    /// Of the greatest capacity, all 0.
    pub fn fresh() -> Tables {
        Tables {
            entities: Numbers::Own(vec![0; ENTITY_NUMBERS]),
            versions: Numbers::Own(vec![0; VERSION_NUMBERS]),
            edges: Numbers::Own(vec![0; EDGE_NUMBERS]),
        }
    }

    /// The rows in use by these counts, which stand in a file one table after another from byte `at` on; none if it ends before.
    pub fn in_file(counts: Counts, file: &Arc<HeldFile>, at: usize) -> Option<Tables> {
        let versions_at = at.checked_add(4 * ENTITY_WIDTH * counts.entities as usize)?;
        let edges_at = versions_at.checked_add(4 * VERSION_WIDTH * counts.versions as usize)?;
        let end = edges_at.checked_add(4 * EDGE_WIDTH * counts.edges as usize)?;
        Some(Tables {
            entities: Numbers::in_file(file, at..versions_at)?,
            versions: Numbers::in_file(file, versions_at..edges_at)?,
            edges: Numbers::in_file(file, edges_at..end)?,
        })
    }

    pub fn stand_in_a_file(&self) -> bool {
        let tables = [&self.entities, &self.versions, &self.edges];
        tables
            .iter()
            .any(|numbers| matches!(numbers, Numbers::InFile(..)))
    }

    /// The tables for writing, if they are their own and of the greatest capacity.
    pub fn for_writing(&mut self) -> Option<[&mut [u32]; 3]> {
        Some([
            self.entities.for_writing(ENTITY_NUMBERS)?,
            self.versions.for_writing(VERSION_NUMBERS)?,
            self.edges.for_writing(EDGE_NUMBERS)?,
        ])
    }

    /// Of the greatest capacity, with the rows in use of these, which are sound with the counts.
    pub fn copy_rows(&self, counts: Counts) -> Tables {
        let mut copy = Tables::fresh();
        let [entities, versions, edges] = copy.for_writing().expect("fresh tables are their own");
        put(entities, self.entity_rows(counts));
        put(versions, self.version_rows(counts));
        put(edges, self.edge_rows(counts));
        copy
    }

    pub fn entity_rows(&self, counts: Counts) -> &[u32] {
        &self.entities[..ENTITY_WIDTH * counts.entities as usize]
    }

    pub fn version_rows(&self, counts: Counts) -> &[u32] {
        &self.versions[..VERSION_WIDTH * counts.versions as usize]
    }

    pub fn edge_rows(&self, counts: Counts) -> &[u32] {
        &self.edges[..EDGE_WIDTH * counts.edges as usize]
    }
}

impl Numbers {
    /// A copy where the machine would not find the file's numbers as they stand.
    fn in_file(file: &Arc<HeldFile>, range: Range<usize>) -> Option<Numbers> {
        let bytes = file.get(range.clone())?;
        Some(match numbers_in(bytes) {
            Some(_) => Numbers::InFile(Arc::clone(file), range),
            None => {
                let (fours, _) = bytes.as_chunks();
                Numbers::Own(fours.iter().map(|four| u32::from_le_bytes(*four)).collect())
            }
        })
    }

    fn for_writing(&mut self, least: usize) -> Option<&mut [u32]> {
        match self {
            Numbers::Own(numbers) if numbers.len() >= least => Some(numbers),
            _ => None,
        }
    }
}

impl Default for Numbers {
    fn default() -> Numbers {
        Numbers::Own(Vec::new())
    }
}

impl Deref for Numbers {
    type Target = [u32];

    fn deref(&self) -> &[u32] {
        match self {
            Numbers::Own(numbers) => numbers,
            Numbers::InFile(file, range) => {
                numbers_in(&file[range.clone()]).expect("found there before")
            }
        }
    }
}

fn put(table: &mut [u32], rows: &[u32]) {
    table[..rows.len()].copy_from_slice(rows);
}
