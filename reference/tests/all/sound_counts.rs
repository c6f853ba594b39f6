//! Accepted events, counts and last times of edges in sound tables: each
//! clause just met and just missed. The worked trail has accepted 7 and last
//! time 7; edge 2 has time 5, count 2 and last time 7, edge 3 time 6, count 1
//! and last time 6.

use crate::common::broken_by;
use reference::generate::{set_count, unsound_tables};
use reference::rows::EdgeRow;
use reference::sound::{broken_clauses, Clause};
use reference::Random;
use std::collections::BTreeSet;

/// With accepted and the counts of the four edges as given.
fn with_counts(accepted: u32, counts: [u32; 4]) -> Vec<Clause> {
    broken_by(|tables| {
        tables.counts.accepted = accepted;
        for (edge, count) in (0..).zip(counts) {
            set_count(tables, edge, count);
        }
    })
}

/// With the last time of the trail and the time and last time of edge 3.
fn with_times(trail: u32, time: u32, last: u32) -> Vec<Clause> {
    broken_by(|tables| {
        tables.counts.last = trail;
        let row = tables.view().edge(3);
        tables.set_edge(3, EdgeRow { time, last, ..row });
    })
}

#[test]
fn a_count_is_at_least_one() {
    assert_eq!(with_counts(7, [2, 2, 2, 1]), []);
    assert_eq!(with_counts(7, [4, 1, 1, 1]), []);
    let broken = [Clause::EdgeCountAtLeastOne];
    assert_eq!(with_counts(7, [2, 2, 3, 0]), broken);
    assert_eq!(with_counts(7, [0, 3, 3, 1]), broken);
    assert_eq!(with_counts(7, [0, 0, 0, 7]), broken);
}

#[test]
fn counts_sum_to_accepted() {
    let broken = [Clause::EdgeCountsSumToAccepted];
    assert_eq!(with_counts(6, [2, 2, 2, 1]), broken);
    assert_eq!(with_counts(8, [2, 2, 2, 1]), broken);
    assert_eq!(with_counts(8, [2, 2, 2, 2]), []);
    assert_eq!(with_counts(7, [1, 2, 2, 1]), broken);
    assert_eq!(with_counts(7, [2, 3, 2, 1]), broken);
    assert_eq!(with_counts(7, [u32::MAX, 2, 2, 4]), broken);
    assert_eq!(with_counts(7, [1 << 31, 1 << 31, 4, 3]), broken);
    assert_eq!(with_counts(4, [1 << 30; 4].map(|count| count + 1)), broken);
}

#[test]
fn accepted_is_at_most_a_million() {
    assert_eq!(with_counts(1_000_000, [2, 999_995, 2, 1]), []);
    let broken = with_counts(1_000_001, [2, 999_996, 2, 1]);
    assert_eq!(broken, [Clause::AcceptedAtMostMillion]);
}

#[test]
fn edges_are_at_most_accepted() {
    assert_eq!(with_counts(4, [1, 1, 1, 1]), []);
    let of_sum = [Clause::EdgesAtMostAccepted, Clause::EdgeCountsSumToAccepted];
    assert_eq!(with_counts(3, [1, 1, 1, 1]), of_sum);
    let of_count = [Clause::EdgesAtMostAccepted, Clause::EdgeCountAtLeastOne];
    assert_eq!(with_counts(3, [1, 0, 1, 1]), of_count);
    assert_eq!(with_counts(0, [0, 0, 0, 0]), of_count);
}

#[test]
fn the_last_time_lies_between_the_time_and_that_of_the_trail() {
    assert_eq!(with_times(7, 6, 6), []);
    assert_eq!(with_times(7, 6, 7), []);
    assert_eq!(with_times(7, 6, 5), [Clause::EdgeLastAtLeastTime]);
    assert_eq!(with_times(7, 6, 0), [Clause::EdgeLastAtLeastTime]);
    assert_eq!(with_times(7, 6, 8), [Clause::EdgeLastAtMostLast]);
    assert_eq!(with_times(7, 6, u32::MAX), [Clause::EdgeLastAtMostLast]);
    assert_eq!(with_times(6, 6, 6), [Clause::EdgeLastAtMostLast]);
}

#[test]
fn the_time_is_at_most_that_of_the_trail() {
    assert_eq!(with_times(7, 7, 7), []);
    let of_time = [Clause::EdgeTimeAtMostLast, Clause::EdgeLastAtLeastTime];
    assert_eq!(with_times(7, 8, 7), of_time);
    let of_last = [Clause::EdgeTimeAtMostLast, Clause::EdgeLastAtMostLast];
    assert_eq!(with_times(7, 8, 8), of_last);
}

#[test]
fn unsound_tables_miss_the_sum_by_one_or_by_2_to_the_32() {
    let mut random = Random::new(44);
    let mut differences = BTreeSet::new();
    for _ in 0..300 {
        let tables = unsound_tables(&mut random, Clause::EdgeCountsSumToAccepted);
        let sum = tables.view().counted_events() as i64;
        differences.insert(sum - i64::from(tables.counts.accepted));
    }
    assert_eq!(Vec::from_iter(differences), [-1, 1, 1 << 32]);
}

#[test]
fn a_clause_that_follows_is_broken_with_either_of_two_others() {
    let mut random = Random::new(45);
    let mut broken_with = |clause: Clause| {
        let tables = (0..50).map(|_| unsound_tables(&mut random, clause));
        let broken = tables.map(|tables| format!("{:?}", broken_clauses(tables.view())));
        broken.collect::<BTreeSet<String>>().len()
    };
    assert_eq!(broken_with(Clause::EdgesAtMostAccepted), 2);
    assert_eq!(broken_with(Clause::EdgeTimeAtMostLast), 2);
}
