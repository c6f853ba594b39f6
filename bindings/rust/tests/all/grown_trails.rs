//! Trails of real programs' runs: their rows and their kept logs give them again.

use crate::common::{assert_same_rows, entity_numbers, grown, read};
use trail::{EventFile, Record, Time, Trail, HEADER_LENGTH, RECORD_LENGTH};

const FILES: [&str; 4] = [
    "examples/shell.slt",
    "examples/python.slt",
    "examples/git.slt",
    "examples/build.slt",
];

fn again(trail: &Trail) -> Trail {
    Trail::from_rows(
        trail.counts(),
        trail.entity_rows(),
        trail.version_rows(),
        trail.edge_rows(),
    )
    .unwrap()
}

fn records(file: &[u8]) -> Vec<Record> {
    let (records, rest) = file[HEADER_LENGTH..].as_chunks::<RECORD_LENGTH>();
    assert!(rest.is_empty());
    records
        .iter()
        .map(|bytes| Record::decode(*bytes).unwrap())
        .collect()
}

#[test]
fn rows_give_the_trail_again() {
    for name in FILES {
        let trail = grown(&read(name));
        let again = again(&trail);
        assert_same_rows(&again, &trail);
        assert_eq!(again.kept_log(), trail.kept_log());
        for entity in entity_numbers(&trail).step_by(7) {
            let time = Time(trail.counts().last.0 / 2);
            assert_eq!(again.backward(entity, time), trail.backward(entity, time));
            assert_eq!(
                again.forward(&[entity], time),
                trail.forward(&[entity], time)
            );
        }
    }
}

/// A file taken in by parts, each by a trail made of the rows that the part before left.
#[test]
fn by_parts_through_rows() {
    for name in FILES {
        let file = read(name);
        let mut trail = Trail::new().unwrap();
        for part in records(&file).chunks(1000) {
            let part: EventFile = part.iter().copied().collect();
            trail = again(&trail);
            trail.batch(part.as_bytes()).unwrap();
        }
        assert_same_rows(&trail, &grown(&file));
    }
}

#[test]
fn kept_logs_give_the_traces_again() {
    for name in FILES {
        let trail = grown(&read(name));
        let again = grown(&trail.kept_log());
        assert_eq!(again.counts().edges, trail.counts().edges);
        assert_eq!(again.kept_log(), trail.kept_log());
        let last = trail.counts().last;
        for entity in entity_numbers(&trail).step_by(7) {
            let (left, right) = (
                again.backward(entity, last).unwrap(),
                trail.backward(entity, last).unwrap(),
            );
            assert!(left.entities().eq(right.entities()));
        }
    }
}
