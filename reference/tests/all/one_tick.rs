//! Two events in one tick, taken in: worked by hand.

use crate::common::{fresh, grown, worked_tables};
use reference::generate::at_one_time;
use reference::peer::Trail;
use reference::{listing, long_batch, worked_file, BatchAnswer, FileBuilder, FullList, Tables};

/// Object 0, subject 1, object 2, object 3 and object 4.
pub fn declarations() -> FileBuilder {
    let file = FileBuilder::new().object(0).subject(1).object(2);
    file.object(3).object(4)
}

const DECLARATIONS: u32 = 5;

/// Takes the file into a fresh trail. The full list, the batch for long files
/// and the peer must give the same.
pub fn taken_in(file: FileBuilder) -> (BatchAnswer, Tables, FullList) {
    let file = file.bytes();
    let (mut tables, mut long, mut list) = (fresh(20), fresh(20), FullList::new());
    let answer = tables.batch(&file);
    let capacity = tables.view().capacity();
    assert_eq!(long_batch(&mut long, &file), answer);
    assert_eq!(long, tables);
    assert_eq!(list.batch(capacity, &file), answer);
    assert_eq!(list.counts(), tables.counts);
    let mut peer = Trail::new();
    assert_eq!(peer.batch(capacity, &file), answer);
    assert_eq!(peer.counts(), tables.counts);
    (answer, tables, list)
}

/// The refusal and how many events were taken in.
fn answer_of(file: FileBuilder) -> (u32, u32) {
    let (answer, _, _) = taken_in(file);
    (answer.refusal, answer.taken - DECLARATIONS)
}

/// Subject 1 reads 0, writes 2, reads 3, which makes a version, and writes 4,
/// all at time 6.
pub fn tick_with_two_intakes() -> FileBuilder {
    let file = declarations().read(0, 1, 6).write(1, 2, 6);
    file.read(3, 1, 6).write(1, 4, 6)
}

#[test]
fn an_equal_time_is_accepted() {
    let file = declarations().read(0, 1, 5).write(1, 2, 5);
    assert_eq!(answer_of(file.clone()), (0, 2));
    assert_eq!(answer_of(file.clone().read(3, 1, 5).write(1, 4, 5)), (0, 4));
    let tables = taken_in(file).1;
    assert_eq!((tables.counts.accepted, tables.counts.last), (2, 5));
    let edges = tables.view().edge_rows().map(|row| row.numbers());
    let expected = [[0, 1, 1, 5, 1, 5], [1, 2, 2, 5, 1, 5]];
    assert_eq!(edges.collect::<Vec<_>>(), expected);
}

#[test]
fn an_earlier_time_gives_9_and_leaves_nothing() {
    let file = declarations().read(0, 1, 5).write(1, 2, 5);
    let before = taken_in(file.clone()).1;
    for time in [4, 1] {
        let refused = file.clone().read(3, 1, time).read(3, 1, 6);
        let (answer, after, list) = taken_in(refused);
        assert_eq!((answer.refusal, answer.taken), (9, DECLARATIONS + 2));
        assert_eq!((&after, list.accepted.len()), (&before, 2));
        let mut in_another_batch = before.clone();
        let event = FileBuilder::new().read(3, 1, time).bytes();
        let answer = in_another_batch.batch(&event);
        assert_eq!(answer, BatchAnswer::nothing_taken(9));
        assert_eq!(in_another_batch, before);
    }
}

#[test]
fn time_0_gives_9_on_a_fresh_trail_and_on_a_used_one() {
    assert_eq!(answer_of(declarations().read(0, 1, 0)), (9, 0));
    assert_eq!(answer_of(declarations().read(0, 1, 1)), (0, 1));
    let used = declarations().read(0, 1, 1);
    assert_eq!(answer_of(used.clone().write(1, 2, 0)), (9, 1));
    assert_eq!(answer_of(used.clone().read(0, 1, 0)), (9, 1));
    assert_eq!(answer_of(used.write(1, 2, 1)), (0, 2));
    let mut declared = grown(&declarations().bytes());
    let before = declared.clone();
    let answer = declared.batch(&FileBuilder::new().read(0, 1, 0).bytes());
    assert_eq!(answer, BatchAnswer::nothing_taken(9));
    assert_eq!(declared, before);
}

/// A last time without an event is sound, and an event may have it.
#[test]
fn the_last_time_of_tables_without_events() {
    let mut tables = grown(&declarations().bytes());
    tables.counts.last = 9;
    for (time, refusal) in [(0, 9), (8, 9), (9, 0), (10, 0)] {
        let file = FileBuilder::new().read(0, 1, time).bytes();
        assert_eq!(tables.clone().batch(&file).refusal, refusal);
    }
}

#[test]
fn the_greatest_time_is_accepted_again_and_again() {
    let file = declarations().read(0, 1, u32::MAX).write(1, 2, u32::MAX);
    let file = file.read(3, 1, u32::MAX).write(1, 2, u32::MAX);
    assert_eq!(answer_of(file.clone()), (0, 4));
    assert_eq!(answer_of(file.read(0, 1, u32::MAX - 1)), (9, 4));
}

#[test]
fn a_repeat_in_one_tick_is_counted() {
    let file = declarations().read(0, 1, 5).load(0, 1, 5).read(0, 1, 5);
    let (answer, tables, list) = taken_in(file);
    assert_eq!((answer.refusal, answer.tried), (0, 1 + 1));
    assert_eq!(tables.view().edge(0).numbers(), [0, 1, 1, 5, 3, 5]);
    let stands_for = list.stands_for();
    assert_eq!((stands_for[0].count, stands_for[0].last), (3, 5));
}

/// Forks are no repeats.
#[test]
fn equal_events_may_all_be_kept() {
    let forks = FileBuilder::new().subject(0).subject(1);
    let forks = forks.fork(0, 1, 2).fork(0, 1, 2).bytes();
    let edges = grown(&forks);
    let edges = edges.view().edge_rows().map(|row| row.numbers());
    assert_eq!(edges.collect::<Vec<_>>(), [[0, 1, 4, 2, 1, 2]; 2]);
    let mut list = FullList::new();
    list.batch(fresh(9).view().capacity(), &forks);
    assert!(list.stands_for().iter().all(|one| one.count == 1));
}

/// The last event of one file and the first of the next have equal times.
#[test]
fn a_tick_across_two_batches() {
    let file = tick_with_two_intakes().bytes();
    let whole = grown(&file);
    for events in 0..=4 {
        let (first, rest) = file.split_at(8 + 12 * (DECLARATIONS as usize + events));
        let mut tables = fresh(100);
        assert_eq!(tables.batch(first).refusal, 0);
        let answer = tables.batch(&[&file[..8], rest].concat());
        assert_eq!((answer.refusal, answer.taken), (0, 4 - events as u32));
        assert_eq!(tables, whole);
    }
}

/// A signature has no time and is no event.
#[test]
fn a_signature_inside_a_tick() {
    let file = FileBuilder::version_2().object(0).subject(1).object(2);
    let file = file.write(1, 2, 5).sign(2).read(2, 1, 5);
    assert_eq!(fresh(9).batch(&file.clone().bytes()).refusal, 0);
    let answer = fresh(9).batch(&file.write(1, 2, 5).bytes());
    assert_eq!((answer.refusal, answer.taken), (17, 6));
}

/// The worked trail in one tick has the same rows but for times.
#[test]
fn the_worked_trail_in_one_tick() {
    let tables = grown(&at_one_time(&worked_file(), 7));
    let worked = worked_tables();
    assert_eq!(tables.counts, worked.counts);
    assert_eq!(tables.entities, worked.entities);
    let ends = |tables: &Tables| {
        let edges = tables
            .view()
            .edge_rows()
            .map(|row| [row.from, row.to, row.count]);
        edges.collect::<Vec<_>>()
    };
    assert_eq!(ends(&tables), ends(&worked));
    assert_eq!(tables.view().version(4).numbers(), [1, 7, 7, 1]);
    let text = "trail 4 5 4 7 7\nedge 0 1 1 7\nedge 1 2 2 7\nedge 3 4 1 7\nedge 4 2 2 7\n";
    assert_eq!(listing(&at_one_time(&worked_file(), 7)), text.as_bytes());
}
