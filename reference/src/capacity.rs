//! Row sizes, table lengths and capacity.

/// Numbers in an entity row: sort, latest version.
pub const ENTITY_ROW: usize = 2;
/// Numbers in a version row: entity, start, end, previous version.
pub const VERSION_ROW: usize = 4;
/// Numbers in an edge row: from version, to version, kind, time, count, last.
pub const EDGE_ROW: usize = 6;

pub const MOST_ENTITIES: usize = 4_096;
pub const MOST_VERSIONS: usize = 65_536;
pub const MOST_EDGES: usize = 262_144;
pub const MOST_ACCEPTED: u32 = 1_000_000;

/// The lengths of the three tables, in numbers.
#[derive(Clone, Copy, Debug, PartialEq, Eq)]
pub struct TableLengths {
    pub entities: usize,
    pub versions: usize,
    pub edges: usize,
}

impl TableLengths {
    /// The lengths of tables of whole rows.
    pub fn of_rows(entities: usize, versions: usize, edges: usize) -> TableLengths {
        TableLengths {
            entities: entities * ENTITY_ROW,
            versions: versions * VERSION_ROW,
            edges: edges * EDGE_ROW,
        }
    }
}

/// How many rows each table may hold.
#[derive(Clone, Copy, Debug, PartialEq, Eq)]
pub struct Capacity {
    pub entities: usize,
    pub versions: usize,
    pub edges: usize,
}

impl Capacity {
    /// The whole rows lent, up to the cap of each table.
    pub fn of(lengths: TableLengths) -> Capacity {
        Capacity {
            entities: (lengths.entities / ENTITY_ROW).min(MOST_ENTITIES),
            versions: (lengths.versions / VERSION_ROW).min(MOST_VERSIONS),
            edges: (lengths.edges / EDGE_ROW).min(MOST_EDGES),
        }
    }
}
