//! Files and trails that several tests use.

use std::fs;
use std::path::Path;
use trail::{
    DeclaredSort, EntityNo, EventFile, Kind, Time, Trace, Trail, HEADER_LENGTH, MOST_EDGES,
    MOST_ENTITIES, MOST_VERSIONS, RECORD_LENGTH,
};

/// A file of the repository.
pub fn read(name: &str) -> Vec<u8> {
    let path = Path::new(env!("CARGO_MANIFEST_DIR"))
        .join("../..")
        .join(name);
    fs::read(&path).unwrap_or_else(|error| panic!("{}: {error}", path.display()))
}

/// The event file of the worked trail: declarations of study, stager, report and montage, then seven events.
pub fn worked_file() -> Vec<u8> {
    read("examples/worked.slt")
}

pub fn worked_trail() -> Trail {
    grown(&worked_file())
}

/// A fresh trail that has taken the file in.
pub fn grown(file: &[u8]) -> Trail {
    let mut trail = Trail::new().expect("a thread");
    trail.batch(file).expect("a file that is taken in");
    trail
}

/// Where the record of this number, from 1, begins.
pub fn offset_of(record: usize) -> usize {
    HEADER_LENGTH + RECORD_LENGTH * (record - 1)
}

pub fn marked(trace: &Trace) -> Vec<u32> {
    trace.entities().map(|entity| entity.0).collect()
}

pub fn entity_numbers(trail: &Trail) -> impl Iterator<Item = EntityNo> {
    (0..trail.counts().entities).map(EntityNo)
}

pub fn assert_same_rows(left: &Trail, right: &Trail) {
    assert_eq!(left.counts(), right.counts());
    assert_eq!(left.entity_rows(), right.entity_rows());
    assert_eq!(left.version_rows(), right.version_rows());
    assert_eq!(left.edge_rows(), right.edge_rows());
}

/// How many of the entities of `full_file` are subjects: all but the last, which is an object.
pub const SUBJECTS: u32 = MOST_ENTITIES - 1;

/// The file of `c/stack.c`, which fills all tables: forks from each subject to the next, round and round, past the first round each
/// makes a version. Where the versions are as many as there may be, the last fork is repeated, and each time an edge is kept. The
/// last entity is signed.
pub fn full_file() -> EventFile {
    let subjects = SUBJECTS as u16;
    let mut file = EventFile::new();
    for entity in 0..subjects {
        file.declare(entity, DeclaredSort::Subject);
    }
    file.declare(subjects, DeclaredSort::Object);
    for time in 1..=MOST_EDGES {
        let step = time.min(MOST_VERSIONS - 2);
        let source = ((step - 1) % SUBJECTS) as u16;
        let target = (step % SUBJECTS) as u16;
        file.event(Kind::Fork, source, target, Time(time));
    }
    file.sign(subjects);
    file
}

/// Numbers that look random, the same in each run.
pub struct Numbers(pub u64);

impl Numbers {
    pub fn next(&mut self) -> u64 {
        self.0 ^= self.0 << 13;
        self.0 ^= self.0 >> 7;
        self.0 ^= self.0 << 17;
        self.0
    }

    pub fn below(&mut self, bound: u64) -> u64 {
        self.next() % bound
    }
}
