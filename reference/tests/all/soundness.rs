//! Sound tables, clause by clause.

use crate::common::{broken_by, fresh, worked_tables};
use reference::generate::{
    every_length, lend_anew, sign_all, sound_tables, unsound_tables, unsound_tables_by_one_number,
};
use reference::rows::{EntityRow, VersionRow, NO_VERSION};
use reference::sound::{broken_clauses, is_sound, Clause};
use reference::{Counts, FileBuilder, Random, TableLengths, Tables};

type Change = fn(&mut Tables);

#[test]
fn fresh_whatever_the_tables_hold() {
    let mut tables = worked_tables();
    tables.counts = Counts::FRESH;
    tables.entities.fill(9);
    tables.versions.fill(9);
    tables.edges.fill(9);
    assert!(is_sound(tables.view()));
    assert!(is_sound(fresh(0).view()));
}

#[test]
fn counts_without_rows() {
    let mut tables = fresh(0);
    tables.counts.last = u32::MAX;
    assert!(is_sound(tables.view()));
    tables.counts.accepted = 1;
    let broken = broken_clauses(tables.view());
    assert_eq!(broken, [Clause::EdgeCountsSumToAccepted]);
}

#[test]
fn numbers_that_may_change() {
    assert_eq!(broken_by(|_| {}), []);
    assert_eq!(broken_by(|tables| tables.counts.last = 8), []);
    assert_eq!(broken_by(|tables| tables.entities[3] = 1), []);
    assert_eq!(broken_by(|tables| tables.versions[2] = 7), []);
    assert_eq!(broken_by(|tables| tables.versions[17] = 1), []);
    assert_eq!(broken_by(|tables| tables.edges[15] = 3), []);
    assert_eq!(broken_by(|tables| tables.edges[15] = 2), []);
    assert_eq!(broken_by(|tables| tables.edges[9] = 1), []);
    assert_eq!(broken_by(|tables| tables.edges[0] = 3), []);
    assert_eq!(broken_by(|tables| tables.entities[0] = 2), []);
    assert_eq!(broken_by(|tables| tables.entities[4] = 2), []);
}

/// Entity 2 of the worked trail is written, entity 3 read; entity 4 is added
/// without an edge.
#[test]
fn a_sort_is_0_to_2() {
    let with_sort = |sort: u32| {
        broken_by(|tables| {
            assert_eq!(
                tables.batch(&FileBuilder::new().object(4).bytes()).refusal,
                0
            );
            tables.entities[8] = sort;
        })
    };
    for sort in 0..=2 {
        assert_eq!(with_sort(sort), []);
    }
    for sort in [3, 4, 1 << 31, u32::MAX] {
        assert_eq!(with_sort(sort), [Clause::SortIsZeroToTwo]);
    }
}

/// A signed object is one, and a subject cannot be signed if edges join it.
#[test]
fn edges_of_signed_objects() {
    let all = broken_by(sign_all);
    assert_eq!(all, []);
    let subject = broken_by(|tables| tables.entities[2] = 2);
    let broken = [Clause::SourceHasSortOfKind, Clause::TargetHasSortOfKind];
    assert_eq!(subject, broken);
    let fork_from_signed = broken_by(|tables| {
        tables.entities[0] = 2;
        tables.edges[2] = 4;
    });
    assert_eq!(fork_from_signed, [Clause::SourceHasSortOfKind]);
    let fork_into_signed = broken_by(|tables| {
        tables.entities[4] = 2;
        tables.edges[8] = 4;
    });
    assert_eq!(fork_into_signed, [Clause::TargetHasSortOfKind]);
}

#[test]
fn numbers_that_may_not_change() {
    let changes: [(Change, Clause); 16] = [
        (|tables| tables.entities[3] = 5, Clause::LatestExists),
        (
            |tables| tables.entities[3] = 2,
            Clause::LatestIsOfThatEntity,
        ),
        (|tables| tables.versions[18] = 4, Clause::StartAtMostEnd),
        (|tables| tables.versions[18] = 8, Clause::EndAtMostLast),
        (
            |tables| tables.versions[7] = 0,
            Clause::NoPreviousWhereStartIsZero,
        ),
        (
            |tables| tables.versions[19] = u32::MAX,
            Clause::PreviousWhereStartIsNotZero,
        ),
        (
            |tables| tables.versions[17] = 0,
            Clause::NoPreviousWhereStartIsZero,
        ),
        (
            |tables| tables.versions[19] = 5,
            Clause::PreviousHasLowerNumber,
        ),
        (
            |tables| tables.versions[19] = 0,
            Clause::PreviousIsOfSameEntity,
        ),
        (|tables| tables.edges[0] = 5, Clause::FromExists),
        (|tables| tables.edges[1] = 5, Clause::ToExists),
        (|tables| tables.edges[2] = 0, Clause::KindIsOneToFive),
        (|tables| tables.edges[2] = 6, Clause::KindIsOneToFive),
        (|tables| tables.edges[6] = 0, Clause::SourceHasSortOfKind),
        (|tables| tables.edges[3] = 0, Clause::EdgeTimeAtLeastOne),
        (|tables| tables.edges[15] = 1, Clause::EdgeTimesDoNotFall),
    ];
    for (change, clause) in changes {
        assert_eq!(broken_by(change), [clause]);
    }
}

#[test]
fn previous_version_starts_no_later() {
    let entity = EntityRow { sort: 0, latest: 2 };
    let version = |start, previous| VersionRow {
        entity: 0,
        start,
        end: 5,
        previous,
    };
    let broken = |start, previous| {
        let versions = [
            version(0, NO_VERSION),
            version(3, 0),
            version(start, previous),
        ];
        broken_clauses(Tables::of_rows(&[entity], &versions, &[], 0, 5).view())
    };
    assert_eq!(broken(4, 1), []);
    assert_eq!(broken(3, 1), []);
    assert_eq!(broken(2, 1), [Clause::PreviousStartsNoLater]);
    assert_eq!(broken(1, 1), [Clause::PreviousStartsNoLater]);
    assert_eq!(broken(2, 0), []);
    assert_eq!(broken(4, 2), [Clause::PreviousHasLowerNumber]);
}

#[test]
fn one_number_makes_tables_unsound() {
    let mut random = Random::new(43);
    let mut broken_alone_or_not = [0; 2];
    for _ in 0..500 {
        let tables = unsound_tables_by_one_number(&mut random);
        let broken = broken_clauses(tables.view()).len();
        assert!(broken > 0);
        broken_alone_or_not[usize::from(broken > 1)] += 1;
    }
    assert!(broken_alone_or_not[0] > 0 && broken_alone_or_not[1] > 0);
}

#[test]
fn every_table_length() {
    let mut random = Random::new(40);
    let tables = worked_tables();
    let counts = tables.counts;
    for entities in every_length(counts.entities, 2) {
        for versions in every_length(counts.versions, 4) {
            for edges in every_length(counts.edges, 6) {
                let lengths = TableLengths {
                    entities,
                    versions,
                    edges,
                };
                let lent = lend_anew(&mut random, &tables, lengths);
                let rows_fit = entities >= 8 && versions >= 20 && edges >= 24;
                assert_eq!(is_sound(lent.view()), rows_fit);
            }
        }
    }
}

#[test]
fn each_clause_alone_makes_tables_unsound() {
    let mut random = Random::new(41);
    for clause in Clause::ALL {
        for _ in 0..20 {
            let tables = unsound_tables(&mut random, clause);
            let broken = broken_clauses(tables.view());
            let others = usize::from(clause.follows_from_others());
            assert!(broken.contains(&clause) && broken.len() == 1 + others);
            assert!(!is_sound(tables.view()));
        }
    }
}

#[test]
fn a_batch_leaves_sound_tables_sound() {
    let mut random = Random::new(42);
    let mut taken = 0;
    for _ in 0..600 {
        let mut tables = sound_tables(&mut random);
        let mut call = reference::generate::calls::batch_on(&mut random, &tables);
        call.run(&mut tables);
        taken += tables.counts.edges;
        assert!(is_sound(tables.view()));
    }
    assert!(taken > 600);
}
