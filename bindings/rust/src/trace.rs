//! What traces answer.

use crate::{Counts, EntityNo, Time, VersionNo};

/// Which entities and versions a trace marked.
#[derive(Clone, Debug, PartialEq, Eq)]
pub struct Trace {
    pub(crate) versions: Vec<u8>,
    pub(crate) entities: Vec<u8>,
    pub(crate) count: u32,
}

impl Trace {
    /// With none marked.
    pub(crate) fn none(counts: Counts) -> Trace {
        Trace {
            versions: vec![0; counts.versions as usize],
            entities: vec![0; counts.entities as usize],
            count: 0,
        }
    }

    /// Whether the entity is marked; not, if the trail has no such entity.
    pub fn is_marked(&self, entity: EntityNo) -> bool {
        self.entities.get(entity.0 as usize) == Some(&1)
    }

    /// Whether the version is marked; not, if the trail has no such version.
    pub fn is_version_marked(&self, version: VersionNo) -> bool {
        self.versions.get(version.0 as usize) == Some(&1)
    }

    /// The marked entities, by number.
    pub fn entities(&self) -> impl Iterator<Item = EntityNo> + '_ {
        (0..)
            .zip(&self.entities)
            .filter(|(_, mark)| **mark == 1)
            .map(|(number, _)| EntityNo(number))
    }

    /// How many entities are marked.
    pub fn count(&self) -> u32 {
        self.count
    }
}

/// A forward trace, and its intake.
#[derive(Clone, Debug, PartialEq, Eq)]
pub struct ForwardTrace {
    pub trace: Trace,
    /// The earliest of the members' intakes, 0 for no members. A member's is the time of the last kept event into it at or before
    /// the time asked, 0 if there is none: its trace begins there.
    pub intake: Time,
}
