//! The counts, and the rows of the three tables.

use crate::{EdgeNo, EntityNo, Time, VersionNo, EDGE_WIDTH, ENTITY_WIDTH, NONE, VERSION_WIDTH};

/// How many rows of each table are in use, how many events were accepted, and the time of the last one. All five 0 is a fresh
/// trail.
#[derive(Clone, Copy, Debug, Default, PartialEq, Eq)]
#[repr(C)]
pub struct Counts {
    pub entities: u32,
    pub versions: u32,
    pub edges: u32,
    pub accepted: u32,
    pub last: Time,
}

/// What an entity is.
#[derive(Clone, Copy, Debug, PartialEq, Eq, Hash)]
pub enum Sort {
    Object = 0,
    Subject = 1,
    /// An object that no event goes into any more.
    SignedObject = 2,
}

impl Sort {
    /// The number in entity rows.
    pub fn number(self) -> u32 {
        self as u32
    }

    pub fn is_subject(self) -> bool {
        self == Sort::Subject
    }

    fn of(number: u32) -> Sort {
        [Sort::Object, Sort::Subject, Sort::SignedObject][number as usize]
    }
}

/// What an event does. Read, load and execve go from an object to a subject, write from a subject to an object, fork from a
/// subject to a subject.
#[derive(Clone, Copy, Debug, PartialEq, Eq, Hash)]
pub enum Kind {
    Read = 1,
    Write = 2,
    Load = 3,
    Fork = 4,
    Execve = 5,
}

impl Kind {
    pub(crate) const ALL: [Kind; 5] = [
        Kind::Read,
        Kind::Write,
        Kind::Load,
        Kind::Fork,
        Kind::Execve,
    ];

    /// The number in edge rows and in records.
    pub fn number(self) -> u32 {
        self as u32
    }

    /// `read`, `write`, `load`, `fork` or `execve`.
    pub fn word(self) -> &'static str {
        match self {
            Kind::Read => "read",
            Kind::Write => "write",
            Kind::Load => "load",
            Kind::Fork => "fork",
            Kind::Execve => "execve",
        }
    }

    fn of(number: u32) -> Kind {
        Kind::ALL[number as usize - 1]
    }
}

/// The row of an entity.
#[derive(Clone, Copy, Debug, PartialEq, Eq)]
pub struct EntityRow {
    pub sort: Sort,
    pub latest: VersionNo,
}

/// The row of a version.
#[derive(Clone, Copy, Debug, PartialEq, Eq)]
pub struct VersionRow {
    pub entity: EntityNo,
    pub start: Time,
    pub end: Time,
    /// `None` for a first version.
    pub previous: Option<VersionNo>,
}

/// The row of an edge: it stands for the event that was kept as it, at its time, and for those that repeat it.
#[derive(Clone, Copy, Debug, PartialEq, Eq)]
pub struct EdgeRow {
    pub from: VersionNo,
    pub to: VersionNo,
    pub kind: Kind,
    pub time: Time,
    /// How many events it stands for.
    pub count: u32,
    /// The time of the last of them.
    pub last: Time,
}

/// A row of a sound table, read from its numbers.
pub(crate) trait Row<const WIDTH: usize> {
    type No;
    fn no(number: u32) -> Self::No;
    fn read(numbers: [u32; WIDTH]) -> Self;
}

impl Row<ENTITY_WIDTH> for EntityRow {
    type No = EntityNo;

    fn no(number: u32) -> EntityNo {
        EntityNo(number)
    }

    fn read([sort, latest]: [u32; ENTITY_WIDTH]) -> EntityRow {
        EntityRow {
            sort: Sort::of(sort),
            latest: VersionNo(latest),
        }
    }
}

impl Row<VERSION_WIDTH> for VersionRow {
    type No = VersionNo;

    fn no(number: u32) -> VersionNo {
        VersionNo(number)
    }

    fn read([entity, start, end, previous]: [u32; VERSION_WIDTH]) -> VersionRow {
        VersionRow {
            entity: EntityNo(entity),
            start: Time(start),
            end: Time(end),
            previous: (previous != NONE).then_some(VersionNo(previous)),
        }
    }
}

impl Row<EDGE_WIDTH> for EdgeRow {
    type No = EdgeNo;

    fn no(number: u32) -> EdgeNo {
        EdgeNo(number)
    }

    fn read([from, to, kind, time, count, last]: [u32; EDGE_WIDTH]) -> EdgeRow {
        EdgeRow {
            from: VersionNo(from),
            to: VersionNo(to),
            kind: Kind::of(kind),
            time: Time(time),
            count,
            last: Time(last),
        }
    }
}

/// Row `number` of the rows in use, if it is one of them.
pub(crate) fn row<R: Row<WIDTH>, const WIDTH: usize>(rows: &[u32], number: u32) -> Option<R> {
    rows.as_chunks::<WIDTH>()
        .0
        .get(number as usize)
        .map(|numbers| R::read(*numbers))
}

/// The rows in use with their numbers, in order.
pub(crate) fn all_rows<R: Row<WIDTH>, const WIDTH: usize>(
    rows: &[u32],
) -> impl Iterator<Item = (R::No, R)> + '_ {
    (0..)
        .zip(rows.as_chunks::<WIDTH>().0)
        .map(|(number, numbers)| (R::no(number), R::read(*numbers)))
}
