//! Signatures in generated files and tables.

use crate::common::{fresh, signed};
use reference::generate::{event_file, long_signed_file, sound_tables, RecordSource};
use reference::Random;
use std::collections::HashSet;

/// How many events go out of an object that a record before them signs.
fn events_after_signature(file: &[u8]) -> usize {
    let mut signed = HashSet::new();
    let mut events = 0;
    for record in file[8..].chunks(12) {
        let number = [record[2], record[3]];
        match record[0] {
            6 => {
                signed.insert(number);
            }
            1..=5 if signed.contains(&number) => events += 1,
            _ => {}
        }
    }
    events
}

#[test]
fn event_files_are_of_both_versions_and_hold_signatures_in_one() {
    let mut random = Random::new(66);
    let (mut versions, mut signatures) = ([0; 3], [0; 3]);
    let mut after_signature = 0;
    for _ in 0..200 {
        let mut tables = fresh(100);
        let file = event_file(&mut random, &mut RecordSource::fresh(), 80);
        assert_eq!(tables.batch(&file).refusal, 0);
        let version = usize::from(file[3]);
        versions[version] += 1;
        signatures[version] += signed(&tables).len();
        after_signature += events_after_signature(&file);
    }
    assert!(versions[1] > 50 && versions[2] > 50, "{versions:?}");
    assert!(signatures[1] == 0 && signatures[2] > 200, "{signatures:?}");
    assert!(after_signature > 500, "{after_signature}");
}

#[test]
fn sound_tables_hold_signed_objects() {
    let mut random = Random::new(67);
    let (mut none, mut some, mut all) = (0, 0, 0);
    for _ in 0..2_000 {
        let tables = sound_tables(&mut random);
        let of_sort = |sort: u32| {
            let rows = tables.view().entity_rows();
            rows.filter(|row| row.sort == sort).count()
        };
        match (of_sort(0), of_sort(2)) {
            (0, 0) => {}
            (_, 0) => none += 1,
            (0, _) => all += 1,
            _ => some += 1,
        }
    }
    for seen in [none, some, all] {
        assert!(seen > 100, "{seen}");
    }
}

#[test]
fn long_signed_files_are_taken_in_whole() {
    let mut random = Random::new(68);
    let mut tables = fresh(500);
    let answer = tables.batch(&long_signed_file(&mut random, 20, 400));
    let signatures = signed(&tables).len() as u32;
    assert_eq!((answer.refusal, answer.taken), (0, 420 + signatures));
    assert!(signatures > 3, "{signatures}");
}
