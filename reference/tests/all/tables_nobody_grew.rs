//! Sound tables that no file gave, worked by hand.

use crate::common::{backward, forward};
use reference::rows::{EdgeRow, EntityRow, VersionRow, NO_VERSION};
use reference::sound::is_sound;
use reference::trace::{chain, start_version};
use reference::{FileBuilder, Tables};

const OBJECT: u32 = 0;
const SUBJECT: u32 = 1;
const READ: u32 = 1;
const WRITE: u32 = 2;
const FORK: u32 = 4;
const EXECVE: u32 = 5;

fn entity(sort: u32, latest: u32) -> EntityRow {
    EntityRow { sort, latest }
}

fn version(entity: u32, start: u32, end: u32, previous: u32) -> VersionRow {
    VersionRow {
        entity,
        start,
        end,
        previous,
    }
}

fn first(entity: u32) -> VersionRow {
    version(entity, 0, 0, NO_VERSION)
}

fn edge(from: u32, to: u32, kind: u32, time: u32) -> EdgeRow {
    counted(from, to, kind, time, 1, time)
}

fn counted(from: u32, to: u32, kind: u32, time: u32, count: u32, last: u32) -> EdgeRow {
    EdgeRow::from_numbers(&[from, to, kind, time, count, last])
}

/// Sound tables with 9 as the last time and three rows left in each table.
fn tables(entities: &[EntityRow], versions: &[VersionRow], edges: &[EdgeRow]) -> Tables {
    let accepted = edges.iter().map(|edge| edge.count).sum();
    let mut tables = Tables::of_rows(entities, versions, edges, accepted, 9);
    tables.entities.extend([8; 6]);
    tables.versions.extend([8; 12]);
    tables.edges.extend([8; 18]);
    assert!(is_sound(tables.view()));
    tables
}

/// Subjects that fork each other, with a single version each.
fn two_subjects() -> Tables {
    tables(
        &[entity(SUBJECT, 0), entity(SUBJECT, 1)],
        &[first(0), first(1)],
        &[edge(0, 1, FORK, 3), edge(1, 0, FORK, 6)],
    )
}

#[test]
fn edge_leaves_before_one_enters() {
    let tables = tables(
        &[entity(OBJECT, 0), entity(SUBJECT, 1), entity(OBJECT, 2)],
        &[first(0), first(1), first(2)],
        &[edge(1, 2, WRITE, 1), edge(0, 1, READ, 2)],
    );
    let (answer, work, marks) = backward(&tables, 2, 1);
    assert_eq!((answer.count, work, marks), (3, vec![1; 3], vec![1; 3]));
    let (answer, _, marks) = backward(&tables, 1, 1);
    assert_eq!((answer.count, marks), (1, vec![0, 1, 0]));
    assert_eq!(forward(&tables, &[0], 0).answer.count, 3);
}

#[test]
fn start_version_met_again_keeps_its_time_limit() {
    let tables = two_subjects();
    let counts = |entity| [0, 2, 3, 5, 6, 9].map(|time| backward(&tables, entity, time).0.count);
    assert_eq!(counts(0), [1, 1, 1, 1, 2, 2]);
    assert_eq!(counts(1), [1, 1, 2, 2, 2, 2]);
}

#[test]
fn intake_is_the_greatest_time_of_an_entering_edge() {
    let tables = two_subjects();
    let intakes =
        |entity| [0, 2, 3, 5, 6, 9].map(|time| forward(&tables, &[entity], time).answer.intake);
    assert_eq!(intakes(0), [0, 0, 0, 0, 6, 6]);
    assert_eq!(intakes(1), [0, 0, 3, 3, 3, 3]);
}

/// Object 0 has five versions; 4 -> 1 -> 0 is its chain. Versions 2 and 3 are
/// off every chain. Object 0 was read from version 3 and written into 2.
fn versions_off_the_chain() -> Tables {
    tables(
        &[entity(OBJECT, 4), entity(SUBJECT, 5)],
        &[
            first(0),
            version(0, 2, 3, 0),
            version(0, 1, 4, 0),
            version(0, 4, 4, 2),
            version(0, 6, 7, 1),
            first(1),
        ],
        &[edge(3, 5, READ, 5), edge(5, 2, WRITE, 7)],
    )
}

#[test]
fn start_version_is_on_the_chain_from_the_latest() {
    let tables = versions_off_the_chain();
    assert_eq!(chain(tables.view(), 0), [4, 1, 0]);
    let starts = [0, 1, 2, 5, 6, 9].map(|time| start_version(tables.view(), 0, time));
    assert_eq!(starts, [0, 0, 1, 1, 4, 4]);
}

#[test]
fn forward_goes_to_every_version_after_one() {
    let tables = versions_off_the_chain();
    let at_0 = forward(&tables, &[0], 0);
    assert_eq!((at_0.answer.count, at_0.work), (2, vec![1; 6]));
    let at_2 = forward(&tables, &[0], 2);
    assert_eq!((at_2.answer.count, at_2.marks), (1, vec![1, 0]));
    assert_eq!(at_2.work, [0, 1, 0, 0, 1, 0]);
}

#[test]
fn intake_without_an_entering_edge_is_the_start() {
    let tables = versions_off_the_chain();
    let intakes = [0, 1, 2, 5, 6, 9].map(|time| forward(&tables, &[0], time).answer.intake);
    assert_eq!(intakes, [0, 0, 2, 2, 6, 6]);
}

#[test]
fn backward_through_versions_off_the_chain() {
    let tables = versions_off_the_chain();
    let (answer, work, marks) = backward(&tables, 1, 5);
    assert_eq!((answer.count, marks), (2, vec![1, 1]));
    assert_eq!(work, [1, 0, 1, 1, 0, 1]);
    let (answer, work, _) = backward(&tables, 1, 4);
    assert_eq!((answer.count, work), (1, vec![0, 0, 0, 0, 0, 1]));
}

#[test]
fn repeat_by_an_edge_to_a_version_off_the_chain() {
    let mut tables = versions_off_the_chain();
    let before = tables.clone();
    let answer = tables.batch(&FileBuilder::new().write(1, 0, 10).bytes());
    assert_eq!((answer.refusal, answer.taken), (0, 1));
    assert_eq!((tables.counts.accepted, tables.counts.last), (3, 10));
    assert_eq!(tables.view().edge(1), counted(5, 2, WRITE, 7, 2, 10));
    assert_only_edge_changed(tables, &before, 1);
}

/// Nothing but the counts record and this edge differs.
fn assert_only_edge_changed(mut tables: Tables, before: &Tables, number: u32) {
    tables.counts = before.counts;
    tables.set_edge(number, before.view().edge(number));
    assert_eq!(tables, *before);
}

#[test]
fn no_repeat_by_an_edge_from_a_version_off_the_chain() {
    let mut tables = versions_off_the_chain();
    let answer = tables.batch(&FileBuilder::new().read(0, 1, 10).bytes());
    assert_eq!((answer.refusal, answer.taken), (0, 1));
    assert_eq!(tables.view().edge(2), edge(4, 6, READ, 10));
    assert_eq!(tables.view().version(6), version(1, 10, 10, 5));
    assert_eq!(tables.view().entity(1).latest, 6);
}

#[test]
fn an_older_version_with_edges_does_not_keep_the_latest_from_widening() {
    let mut tables = tables(
        &[entity(SUBJECT, 2), entity(OBJECT, 1)],
        &[first(0), first(1), version(0, 3, 8, 0)],
        &[edge(0, 1, WRITE, 1)],
    );
    let file = FileBuilder::new().read(1, 0, 10).write(0, 1, 11).bytes();
    assert_eq!(tables.batch(&file).refusal, 0);
    assert_eq!(tables.view().version(2), version(0, 3, 10, 0));
    assert_eq!(tables.view().edge(1), edge(1, 2, READ, 10));
    assert_eq!(tables.view().version(3), version(1, 11, 11, 1));
    assert_eq!(tables.view().edge(2), edge(2, 3, WRITE, 11));
}

#[test]
fn a_repeat_by_an_edge_of_another_kind() {
    let mut tables = tables(
        &[entity(OBJECT, 0), entity(SUBJECT, 1)],
        &[first(0), first(1)],
        &[edge(0, 1, EXECVE, 2)],
    );
    let file = FileBuilder::new().load(0, 1, 10).read(0, 1, 11).bytes();
    assert_eq!(tables.batch(&file).refusal, 0);
    assert_eq!((tables.counts.edges, tables.counts.accepted), (1, 3));
    assert_eq!(tables.view().edge(0), counted(0, 1, EXECVE, 2, 3, 11));
    let file = FileBuilder::new().execve(0, 1, 12).execve(0, 1, 13).bytes();
    assert_eq!(tables.batch(&file).refusal, 0);
    assert_eq!((tables.counts.edges, tables.counts.accepted), (3, 5));
    assert_eq!(tables.view().edge(0), counted(0, 1, EXECVE, 2, 3, 11));
    assert_eq!(tables.view().edge(2), edge(0, 1, EXECVE, 13));
    assert_eq!(tables.view().version(1), version(1, 0, 13, NO_VERSION));
}

/// Object 0 has versions 0 and 1, its latest; subject 1 versions 2 and 3;
/// subject 2 version 4. Three edges go from version 1 to subject 1, the newest
/// of them to the older version; newer still are one from version 0 to
/// subject 1 and one from version 1 to subject 2.
fn several_edges_to_repeat() -> Tables {
    tables(
        &[entity(OBJECT, 1), entity(SUBJECT, 3), entity(SUBJECT, 4)],
        &[
            first(0),
            version(0, 1, 1, 0),
            first(1),
            version(1, 2, 2, 2),
            first(2),
        ],
        &[
            counted(1, 3, READ, 2, 4, 9),
            counted(1, 3, EXECVE, 3, 1, 3),
            counted(1, 2, EXECVE, 4, 2, 5),
            counted(0, 3, READ, 6, 7, 8),
            counted(1, 4, READ, 8, 1, 9),
        ],
    )
}

#[test]
fn the_newest_edge_that_makes_it_a_repeat_counts_it() {
    let before = several_edges_to_repeat();
    let mut tables = before.clone();
    let file = FileBuilder::new().load(0, 1, 11).read(0, 1, 13).bytes();
    let answer = tables.batch(&file);
    assert_eq!((answer.refusal, answer.tried), (0, 3 + 3));
    assert_eq!((tables.counts.accepted, tables.counts.last), (17, 13));
    assert_eq!(tables.view().edge(2), counted(1, 2, EXECVE, 4, 4, 13));
    assert_only_edge_changed(tables, &before, 2);
}

#[test]
fn an_edge_kept_since_is_the_newest() {
    let mut tables = several_edges_to_repeat();
    let file = FileBuilder::new().execve(0, 1, 11).read(0, 1, 13).bytes();
    let answer = tables.batch(&file);
    assert_eq!((answer.refusal, answer.tried), (0, 1));
    let edges = [2, 5].map(|number| tables.view().edge(number));
    let kept = counted(1, 3, EXECVE, 11, 2, 13);
    assert_eq!(edges, [counted(1, 2, EXECVE, 4, 2, 5), kept]);
}
