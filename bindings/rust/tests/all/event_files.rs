//! Event files written record by record.

use crate::common::{grown, worked_file};
use trail::{DeclaredSort, EventFile, Kind, Record, Time};

fn worked() -> EventFile {
    let mut file = EventFile::new();
    for (entity, sort) in [
        (0, DeclaredSort::Object),
        (1, DeclaredSort::Subject),
        (2, DeclaredSort::Object),
    ] {
        file.declare(entity, sort);
    }
    file.push(Record::Declaration {
        entity: 3,
        sort: DeclaredSort::Object,
    });
    for (time, source) in [(1, 0), (3, 0), (5, 3)] {
        file.event(Kind::Read, source, 1, Time(time));
        file.event(Kind::Write, 1, 2, Time(time + 1));
    }
    file.event(Kind::Read, 3, 1, Time(7));
    file
}

#[test]
fn the_worked_file() {
    assert_eq!(worked().as_bytes(), worked_file());
    assert_eq!(worked().into_bytes(), worked_file());
}

#[test]
fn a_file_without_records() {
    assert_eq!(EventFile::new().as_bytes(), b"SLT\x01\0\0\0\0");
    assert_eq!(EventFile::default(), EventFile::new());
}

#[test]
fn of_version_2_as_soon_as_it_holds_a_signature() {
    let mut file = worked();
    assert_eq!(file.as_bytes()[3..5], [1, 0]);
    file.sign(2);
    assert_eq!(file.as_bytes()[3..5], [2, 0]);
    file.event(Kind::Read, 0, 1, Time(8));
    assert_eq!(file.as_bytes()[3..5], [2, 0]);
    assert_eq!(grown(file.as_bytes()).counts().accepted, 8);
}

#[test]
fn of_records() {
    let records = [
        Record::Declaration {
            entity: 0,
            sort: DeclaredSort::Object,
        },
        Record::Signature { entity: 0 },
    ];
    let mut pushed = EventFile::new();
    records.into_iter().for_each(|record| pushed.push(record));
    let mut extended = EventFile::new();
    extended.extend(records);
    assert_eq!(records.into_iter().collect::<EventFile>(), pushed);
    assert_eq!(extended, pushed);
    assert_eq!(pushed.as_bytes().len(), 32);
}
