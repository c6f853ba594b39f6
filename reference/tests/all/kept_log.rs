//! The kept log taken in again.

use crate::common::{backward, forward, fresh, log_of, signed, times};
use reference::generate::{any_members, grown_tables, sound_tables};
use reference::rows::{EdgeRow, EntityRow, VersionRow};
use reference::{Kind, Random, Sort, Tables};

fn taken_in_again(tables: &Tables) -> Tables {
    let mut again = fresh(200);
    let answer = again.batch(&log_of(tables));
    let records = tables.counts.entities + tables.counts.edges;
    let signatures = signed(tables);
    let taken = records + signatures.len() as u32;
    assert_eq!((answer.refusal, answer.taken), (0, taken));
    assert_eq!(signed(&again), signatures);
    again
}

#[test]
fn same_entities_and_kept_events() {
    let mut random = Random::new(10);
    let mut signatures = 0;
    for _ in 0..200 {
        let tables = grown_tables(&mut random, 60);
        signatures += signed(&tables).len();
        let again = taken_in_again(&tables);
        assert_eq!(again.counts.entities, tables.counts.entities);
        assert_eq!(again.counts.versions, tables.counts.versions);
        assert_eq!(again.counts.edges, tables.counts.edges);
        assert_eq!(again.counts.accepted, tables.counts.edges);
        assert_eq!(log_of(&again), log_of(&tables));
    }
    assert!(signatures > 200, "{signatures}");
}

#[test]
fn each_edge_of_a_grown_trail_stands_for_one_event_again() {
    let mut random = Random::new(13);
    let mut dropped = 0;
    for _ in 0..200 {
        let tables = grown_tables(&mut random, 60);
        dropped += tables.counts.accepted - tables.counts.edges;
        let again = taken_in_again(&tables);
        for (edge, old) in again.view().edge_rows().zip(tables.view().edge_rows()) {
            assert_eq!((edge.kind, edge.time), (old.kind, old.time));
            assert_eq!((edge.count, edge.last), (1, edge.time));
        }
    }
    assert!(dropped > 1_000, "{dropped}");
}

/// The load would have been dropped.
#[test]
fn an_edge_of_tables_nobody_grew_may_stand_for_more() {
    let [object, subject] = [Sort::Object, Sort::Subject];
    let entities = [EntityRow::first(0, object), EntityRow::first(1, subject)];
    let versions = [VersionRow::first(0), VersionRow::first(1)];
    let kinds = [(Kind::Execve, 1), (Kind::Load, 2)];
    let edges = kinds.map(|(kind, time)| EdgeRow::new(0, 1, kind, time));
    let tables = Tables::of_rows(&entities, &versions, &edges, 2, 2);
    let again = taken_in_again(&tables);
    assert_eq!(again.counts.edges, 1);
    assert_eq!(again.view().edge(0).numbers(), [0, 1, 5, 1, 2, 2]);
}

#[test]
fn same_traces() {
    let mut random = Random::new(11);
    for _ in 0..10 {
        let tables = grown_tables(&mut random, 40);
        let again = taken_in_again(&tables);
        for entity in 0..tables.counts.entities {
            for time in times(tables.counts.last) {
                let (answer, _, marks) = backward(&tables, entity, time);
                let (answer_again, _, marks_again) = backward(&again, entity, time);
                assert_eq!((answer_again, marks_again), (answer, marks));
                assert_same_forward(&tables, &again, &[entity], time);
            }
        }
    }
}

#[test]
fn same_traces_of_lists() {
    let mut random = Random::new(14);
    for _ in 0..60 {
        let tables = grown_tables(&mut random, 40);
        let again = taken_in_again(&tables);
        for time in times(tables.counts.last) {
            let members = any_members(&mut random, tables.counts.entities);
            assert_same_forward(&tables, &again, &members, time);
        }
    }
}

/// The same but for the work buffer: version numbers may differ.
fn assert_same_forward(tables: &Tables, again: &Tables, members: &[u32], time: u32) {
    let (of_tables, of_again) = (
        forward(tables, members, time),
        forward(again, members, time),
    );
    assert_eq!(of_again.answer, of_tables.answer);
    assert_eq!(of_again.marks, of_tables.marks);
}

#[test]
fn log_of_tables_nobody_grew_is_taken_in_whole() {
    let mut random = Random::new(12);
    for _ in 0..300 {
        taken_in_again(&sound_tables(&mut random));
    }
}

#[test]
fn log_of_a_fresh_trail_is_the_header() {
    assert_eq!(log_of(&fresh(0)), [0x53, 0x4C, 0x54, 1, 0, 0, 0, 0]);
    assert_eq!(fresh(0).kept_log(&mut [0; 7]).refusal, 15);
}
