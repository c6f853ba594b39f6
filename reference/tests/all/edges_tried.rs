//! How many edges are tried for an event, worked by hand.

use crate::common::{fresh, worked_tables};
use reference::search::{search, Search};
use reference::FileBuilder;

/// Object 0, subject 1, object 2 and subject 3.
fn declarations() -> FileBuilder {
    FileBuilder::new().object(0).subject(1).object(2).subject(3)
}

/// The number for a file taken whole into a fresh trail.
fn tried(file: FileBuilder) -> u64 {
    let answer = fresh(20).batch(&file.bytes());
    assert_eq!(answer.refusal, 0);
    answer.tried
}

#[test]
fn without_edges_and_for_declarations_it_is_0() {
    assert_eq!(tried(FileBuilder::new()), 0);
    assert_eq!(tried(declarations()), 0);
    assert_eq!(tried(declarations().read(0, 1, 1)), 0);
    let answer = worked_tables().batch(&FileBuilder::new().object(4).subject(5).bytes());
    assert_eq!((answer.taken, answer.tried), (2, 0));
}

#[test]
fn the_hit_is_counted() {
    let one = declarations().read(0, 1, 1);
    assert_eq!(tried(one.clone().read(0, 1, 2)), 1);
    assert_eq!(tried(one.read(0, 1, 2).read(0, 1, 3)), 1 + 1);
}

#[test]
fn edges_older_than_the_hit_are_not() {
    let file = declarations().read(0, 1, 1).read(2, 1, 2).read(2, 3, 3);
    let kept = 1 + 2;
    assert_eq!(tried(file.clone()), kept);
    assert_eq!(tried(file.clone().read(2, 3, 4)), kept + 1);
    assert_eq!(tried(file.clone().read(2, 1, 4)), kept + 2);
    assert_eq!(tried(file.read(0, 1, 4)), kept + 3);
}

#[test]
fn without_a_hit_all_edges_are() {
    let file = declarations().read(0, 1, 1).read(2, 1, 2).read(2, 3, 3);
    assert_eq!(tried(file.clone().read(0, 3, 4)), 1 + 2 + 3);
    assert_eq!(tried(file.read(0, 3, 4).write(3, 0, 5)), 1 + 2 + 3 + 4);
}

/// The read at 3 gives subject 1 a new version, so the write at 4 goes past
/// the edge of the write at 2.
#[test]
fn an_edge_from_an_older_version_is_no_hit() {
    let file = declarations().read(0, 1, 1).write(1, 2, 2);
    let file = file.read(2, 1, 3).write(1, 0, 4);
    assert_eq!(tried(file.clone()), 1 + 2 + 3);
    assert_eq!(tried(file.clone().write(1, 2, 5)), 1 + 2 + 3 + 4);
    assert_eq!(tried(file.write(1, 2, 5).write(1, 2, 6)), 1 + 2 + 3 + 4 + 1);
}

/// The read at 5 gives subject 1 a new version. The read at 6 hits the edge
/// into the older one.
#[test]
fn the_hit_may_enter_an_older_version_of_the_target() {
    let file = declarations().read(0, 1, 1).write(1, 2, 2).read(0, 3, 3);
    let file = file.write(3, 2, 4).read(2, 1, 5);
    let before = 1 + 2 + 3 + 4;
    assert_eq!(tried(file.clone()), before);
    assert_eq!(tried(file.clone().read(0, 1, 6)), before + 5);
    assert_eq!(tried(file.read(2, 1, 6)), before + 1);
}

#[test]
fn forks_and_execves_try_none_and_are_tried() {
    let file = declarations().execve(0, 1, 1).execve(0, 1, 2);
    let file = file.fork(1, 3, 3).fork(1, 3, 4);
    assert_eq!(tried(file.clone()), 0);
    assert_eq!(tried(file.clone().execve(0, 1, 5).fork(1, 3, 6)), 0);
    assert_eq!(tried(file.clone().write(3, 2, 5)), 4);
    assert_eq!(tried(file.clone().write(3, 2, 5).fork(1, 3, 6)), 4);
    assert_eq!(tried(file.read(0, 1, 5)), 3);
}

#[test]
fn loads_try_edges_and_the_hit_is_of_any_kind() {
    let read = declarations().read(0, 1, 1).read(0, 3, 2);
    assert_eq!(tried(read.clone().load(0, 1, 3)), 1 + 2);
    assert_eq!(tried(read.clone().load(0, 3, 3)), 1 + 1);
    assert_eq!(tried(read.load(2, 3, 3)), 1 + 2);
    let load = declarations().load(0, 1, 1).execve(0, 1, 2);
    assert_eq!(tried(load.clone().read(0, 1, 3)), 1);
    assert_eq!(tried(load.execve(2, 3, 3).load(0, 1, 4)), 2);
}

#[test]
fn the_search_gives_the_hit_and_how_many_it_tried() {
    let tables = worked_tables();
    let found = |from: u32, target: u32| {
        let Search { hit, tried } = search(tables.view(), from, target);
        (hit, tried)
    };
    assert_eq!(found(4, 2), (Some(3), 1));
    assert_eq!(found(3, 1), (Some(2), 2));
    assert_eq!(found(1, 2), (Some(1), 3));
    assert_eq!(found(0, 1), (Some(0), 4));
    assert_eq!(found(0, 2), (None, 4));
    assert_eq!(search(fresh(3).view(), 0, 1).tried, 0);
}
