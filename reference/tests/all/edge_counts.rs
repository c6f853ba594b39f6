//! How many events an edge stands for, in trails grown from fresh.

use crate::common::{fresh, grown, worked_tables};
use reference::capacity::EDGE_ROW;
use reference::generate::{grown_tables, lend_anew, roomy_lengths};
use reference::{FileBuilder, Random, Tables};

/// The edges of the tables, as their numbers.
fn edges(tables: &Tables) -> Vec<[u32; EDGE_ROW]> {
    tables.view().edge_rows().map(|row| row.numbers()).collect()
}

/// Object 0, subject 1 and object 2.
fn declarations() -> FileBuilder {
    FileBuilder::new().object(0).subject(1).object(2)
}

#[test]
fn an_edge_is_kept_with_a_count_of_one() {
    let tables = grown(&declarations().read(0, 1, 5).write(1, 2, 9).bytes());
    assert_eq!(edges(&tables), [[0, 1, 1, 5, 1, 5], [1, 2, 2, 9, 1, 9]]);
}

#[test]
fn each_repeat_adds_one_and_sets_the_last_time() {
    let file = declarations().read(0, 1, 5);
    let tables = grown(&file.clone().load(0, 1, 6).bytes());
    assert_eq!(edges(&tables), [[0, 1, 1, 5, 2, 6]]);
    let file = file.load(0, 1, 6).read(0, 1, u32::MAX);
    assert_eq!(edges(&grown(&file.bytes())), [[0, 1, 1, 5, 3, u32::MAX]]);
}

#[test]
fn forks_and_execves_are_counted_by_edges_of_their_own() {
    let file = FileBuilder::new().subject(0).subject(1).object(2);
    let file = file.fork(0, 1, 1).fork(0, 1, 2);
    let file = file.execve(2, 0, 3).execve(2, 0, 4);
    let counts = edges(&grown(&file.bytes())).into_iter();
    let counts: Vec<[u32; 3]> = counts
        .map(|[.., time, count, last]| [time, count, last])
        .collect();
    assert_eq!(counts, [[1, 1, 1], [2, 1, 2], [3, 1, 3], [4, 1, 4]]);
}

#[test]
fn the_newest_of_several_edges_counts_a_repeat() {
    let file = declarations().execve(0, 1, 1).execve(0, 1, 2);
    let tables = grown(&file.clone().read(0, 1, 3).load(0, 1, 4).bytes());
    let expected = [[0, 1, 5, 1, 1, 1], [0, 1, 5, 2, 3, 4]];
    assert_eq!(edges(&tables), expected);
    let file = file.read(0, 1, 3).execve(0, 1, 4).read(0, 1, 5);
    let expected = [[0, 1, 5, 1, 1, 1], [0, 1, 5, 2, 2, 3], [0, 1, 5, 4, 2, 5]];
    assert_eq!(edges(&grown(&file.bytes())), expected);
}

/// The read at 3 gives the subject a new version, so the write at 4 is kept
/// and counts the write at 5.
#[test]
fn an_edge_from_an_older_version_counts_no_more() {
    let file = declarations().write(1, 2, 1).write(1, 2, 2);
    let file = file.read(0, 1, 3).write(1, 2, 4).write(1, 2, 5);
    let expected = [[1, 2, 2, 1, 2, 2], [0, 3, 1, 3, 1, 3], [3, 2, 2, 4, 2, 5]];
    assert_eq!(edges(&grown(&file.bytes())), expected);
}

#[test]
fn a_repeat_in_another_batch_is_counted_alike() {
    let mut tables = worked_tables();
    let file = FileBuilder::new().read(3, 1, 8).write(1, 2, 9).bytes();
    assert_eq!(tables.batch(&file).refusal, 0);
    assert_eq!(edges(&tables)[..2], edges(&worked_tables())[..2]);
    assert_eq!(
        edges(&tables)[2..],
        [[3, 4, 1, 5, 3, 8], [4, 2, 2, 6, 2, 9]]
    );
}

#[test]
fn a_refused_event_adds_to_no_count() {
    let refused = [
        (FileBuilder::new().read(3, 1, 6), 9),
        (FileBuilder::new().read(3, 1, 0), 9),
        (FileBuilder::new().read(3, 2, 8), 8),
        (FileBuilder::new().read(3, 4, 8), 5),
        (
            FileBuilder::new().raw(&[1, 0, 3, 0, 1, 0, 0, 1, 8, 0, 0, 0]),
            4,
        ),
        (
            FileBuilder::new().raw(&[1, 0, 3, 0, 1, 0, 0, 0, 8, 0, 0]),
            3,
        ),
    ];
    for (file, refusal) in refused {
        let mut tables = worked_tables();
        let answer = tables.batch(&file.bytes());
        assert_eq!((answer.refusal, answer.taken), (refusal, 0));
        assert_eq!(tables, worked_tables());
    }
}

/// With three edge rows the write at 6 is refused; those before it count.
#[test]
fn an_event_refused_for_want_of_a_row_adds_to_no_count() {
    let mut tables = fresh(10);
    tables.edges.truncate(3 * EDGE_ROW);
    let answer = tables.batch(&reference::worked_file());
    assert_eq!((answer.refusal, answer.taken), (12, 9));
    let expected = [[0, 1, 1, 1, 2, 3], [1, 2, 2, 2, 2, 4], [3, 4, 1, 5, 1, 5]];
    assert_eq!(edges(&tables), expected);
}

#[test]
fn each_accepted_event_is_counted_at_one_edge() {
    let mut random = Random::new(46);
    for _ in 0..200 {
        let tables = grown_tables(&mut random, 30);
        let lengths = roomy_lengths(tables.counts);
        let mut tables = lend_anew(&mut random, &tables, lengths);
        let mut call = reference::generate::calls::batch_on(&mut random, &tables);
        call.run(&mut tables);
        let accepted = u64::from(tables.counts.accepted);
        assert_eq!(tables.view().counted_events(), accepted);
    }
}
