//! Full tables, with every call made from a thread with a stack of 128 KB.

use crate::common::{full_file, grown, marked, SUBJECTS};
use std::thread;
use trail::{
    Counts, DeclaredSort, EntityNo, EventFile, Kind, Record, Refusal, RefusedBatch, Taken, Time,
    Trail, MOST_ACCEPTED, MOST_EDGES, MOST_ENTITIES, MOST_VERSIONS,
};

/// Runs the test on a thread with a small stack.
fn on_small_stack(test: fn()) {
    let thread = thread::Builder::new()
        .stack_size(128 * 1024)
        .spawn(test)
        .unwrap();
    thread.join().unwrap();
}

const FULL: Counts = Counts {
    entities: MOST_ENTITIES,
    versions: MOST_VERSIONS,
    edges: MOST_EDGES,
    accepted: MOST_EDGES,
    last: Time(MOST_EDGES),
};

fn full_trail() -> Trail {
    grown(full_file().as_bytes())
}

fn refused(trail: &mut Trail, record: Record) -> RefusedBatch {
    let file: EventFile = [record].into_iter().collect();
    trail.batch(file.as_bytes()).unwrap_err()
}

#[test]
fn every_call_on_a_small_stack() {
    on_small_stack(|| {
        let file = full_file();
        let mut trail = Trail::new().unwrap();
        let taken = trail.batch(file.as_bytes()).unwrap();
        assert_eq!(
            taken,
            Taken {
                records: MOST_ENTITIES + MOST_EDGES + 1,
                tried: 0
            }
        );
        assert_eq!(trail.counts(), FULL);
        let subjects: Vec<u32> = (0..SUBJECTS).collect();
        let backward = trail.backward(EntityNo(0), Time(MOST_EDGES)).unwrap();
        assert_eq!(
            (backward.count(), marked(&backward)),
            (SUBJECTS, subjects.clone())
        );
        let members: Vec<EntityNo> = (0..2 * MOST_ENTITIES)
            .map(|i| EntityNo(i % SUBJECTS))
            .collect();
        let forward = trail.forward(&members, Time(0)).unwrap();
        assert_eq!(
            (forward.trace.count(), marked(&forward.trace)),
            (SUBJECTS, subjects)
        );
        let log = trail.kept_log();
        assert!(log == file.as_bytes());
        let again = grown(&log);
        assert!(again.edge_rows() == trail.edge_rows());
        let rows = Trail::from_rows(
            trail.counts(),
            trail.entity_rows(),
            trail.version_rows(),
            trail.edge_rows(),
        )
        .unwrap();
        assert!(rows.version_rows() == trail.version_rows() && rows.kept_log() == log);
        let mut clone = trail.clone();
        assert_eq!(clone.batch(&log).unwrap_err().refusal, Refusal::NotNext);
    });
}

#[test]
fn full_tables_refuse() {
    on_small_stack(|| {
        let mut trail = full_trail();
        let event = |kind, source, target| Record::Event {
            kind,
            source,
            target,
            time: FULL.last,
        };
        let declaration = Record::Declaration {
            entity: MOST_ENTITIES as u16,
            sort: DeclaredSort::Object,
        };
        assert_eq!(
            refused(&mut trail, declaration).refusal,
            Refusal::EntitiesFull
        );
        assert_eq!(
            refused(&mut trail, event(Kind::Fork, 0, 1)).refusal,
            Refusal::EdgesFull
        );
        let read = event(Kind::Read, SUBJECTS as u16, 0);
        assert_eq!(refused(&mut trail, read).refusal, Refusal::EdgesFull);
        assert_eq!(trail.counts(), FULL);
    });
}

/// As many versions as there may be, and edges left.
#[test]
fn full_versions_refuse() {
    let file = full_file();
    let records = (MOST_ENTITIES + MOST_VERSIONS - 1) as usize;
    let mut trail = grown(&file.as_bytes()[..8 + 12 * records]);
    assert_eq!(
        (trail.counts().versions, trail.counts().edges),
        (MOST_VERSIONS, MOST_VERSIONS - 1)
    );
    let (source, target) = (SUBJECTS as u16 - 1, 0);
    let fork = Record::Event {
        kind: Kind::Fork,
        source,
        target,
        time: trail.counts().last,
    };
    assert_eq!(refused(&mut trail, fork).refusal, Refusal::VersionsFull);
}

/// P10 and P11 at full capacity: with no edge row left a repeat is accepted still, and no other event.
#[test]
fn a_repeat_needs_no_row() {
    let mut file = EventFile::new();
    file.declare(0, DeclaredSort::Object);
    file.declare(1, DeclaredSort::Subject);
    file.declare(2, DeclaredSort::Subject);
    file.event(Kind::Read, 0, 1, Time(1));
    for _ in 1..MOST_EDGES {
        file.event(Kind::Fork, 1, 2, Time(2));
    }
    let mut trail = grown(file.as_bytes());
    assert_eq!(trail.counts().edges, MOST_EDGES);
    let mut repeat = EventFile::new();
    repeat.event(Kind::Read, 0, 1, Time(3));
    assert_eq!(
        trail.batch(repeat.as_bytes()),
        Ok(Taken {
            records: 1,
            tried: u64::from(MOST_EDGES)
        })
    );
    let mut other = EventFile::new();
    other.event(Kind::Load, 0, 2, Time(3));
    assert_eq!(
        trail.batch(other.as_bytes()).unwrap_err().refusal,
        Refusal::EdgesFull
    );
}

#[test]
fn a_million_events() {
    on_small_stack(|| {
        let mut file = EventFile::new();
        file.declare(0, DeclaredSort::Object);
        file.declare(1, DeclaredSort::Subject);
        for _ in 0..MOST_ACCEPTED + 1 {
            file.event(Kind::Read, 0, 1, Time(1));
        }
        let mut trail = Trail::new().unwrap();
        let refused = trail.batch(file.as_bytes()).unwrap_err();
        assert_eq!(
            (refused.refusal, refused.record),
            (Refusal::AcceptedFull, MOST_ACCEPTED + 3)
        );
        assert_eq!(refused.offset, file.as_bytes().len() - 12);
        assert_eq!(
            refused.taken,
            Taken {
                records: MOST_ACCEPTED + 2,
                tried: u64::from(MOST_ACCEPTED) - 1
            }
        );
        assert_eq!(
            (trail.counts().accepted, trail.counts().edges),
            (MOST_ACCEPTED, 1)
        );
    });
}
