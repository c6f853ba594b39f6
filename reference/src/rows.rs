//! The rows of the three tables.

use crate::capacity::{EDGE_ROW, ENTITY_ROW, VERSION_ROW};
use crate::record::{Kind, Sort};

/// The previous version where there is none.
pub const NO_VERSION: u32 = 0xFFFF_FFFF;

/// Writes a row of a table.
pub fn write_row<const SIZE: usize>(table: &mut [u32], number: u32, row: [u32; SIZE]) {
    let first = number as usize * SIZE;
    table[first..first + SIZE].copy_from_slice(&row);
}

/// The sort in the row of a signed object. Other rows hold the sort declared.
pub const SIGNED: u32 = 2;

#[derive(Clone, Copy, Debug, PartialEq, Eq)]
pub struct EntityRow {
    pub sort: u32,
    pub latest: u32,
}

impl EntityRow {
    /// The entity whose only version has its own number.
    pub fn first(number: u32, sort: Sort) -> EntityRow {
        EntityRow {
            sort: sort.number(),
            latest: number,
        }
    }

    /// The sort declared: a signed object is an object. None if no sound row
    /// holds this sort.
    pub fn declared_sort(self) -> Option<Sort> {
        match self.sort {
            SIGNED => Some(Sort::Object),
            sort => Sort::from_number(sort),
        }
    }

    pub fn is_signed(self) -> bool {
        self.sort == SIGNED
    }

    pub fn from_numbers(row: &[u32]) -> EntityRow {
        EntityRow {
            sort: row[0],
            latest: row[1],
        }
    }

    pub fn numbers(self) -> [u32; ENTITY_ROW] {
        [self.sort, self.latest]
    }
}

#[derive(Clone, Copy, Debug, PartialEq, Eq)]
pub struct VersionRow {
    pub entity: u32,
    pub start: u32,
    pub end: u32,
    pub previous: u32,
}

impl VersionRow {
    /// The first version of an entity, into which nothing came.
    pub fn first(entity: u32) -> VersionRow {
        VersionRow {
            entity,
            start: 0,
            end: 0,
            previous: NO_VERSION,
        }
    }

    pub fn from_numbers(row: &[u32]) -> VersionRow {
        VersionRow {
            entity: row[0],
            start: row[1],
            end: row[2],
            previous: row[3],
        }
    }

    pub fn numbers(self) -> [u32; VERSION_ROW] {
        [self.entity, self.start, self.end, self.previous]
    }
}

#[derive(Clone, Copy, Debug, PartialEq, Eq)]
pub struct EdgeRow {
    pub from: u32,
    pub to: u32,
    pub kind: u32,
    pub time: u32,
    /// How many accepted events it stands for.
    pub count: u32,
    /// The time of the last of them.
    pub last: u32,
}

impl EdgeRow {
    /// An edge as it is kept: it stands for one event.
    pub fn new(from: u32, to: u32, kind: Kind, time: u32) -> EdgeRow {
        EdgeRow {
            from,
            to,
            kind: kind.number(),
            time,
            count: 1,
            last: time,
        }
    }

    pub fn from_numbers(row: &[u32]) -> EdgeRow {
        EdgeRow {
            from: row[0],
            to: row[1],
            kind: row[2],
            time: row[3],
            count: row[4],
            last: row[5],
        }
    }

    pub fn numbers(self) -> [u32; EDGE_ROW] {
        [
            self.from, self.to, self.kind, self.time, self.count, self.last,
        ]
    }
}
