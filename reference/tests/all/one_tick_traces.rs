//! Traces where two events are in one tick, worked by hand.

use crate::common::{backward, forward, marks_of};
use crate::one_tick::{declarations, taken_in, tick_with_two_intakes};
use reference::causal::{leading_to, reached_from};
use reference::FileBuilder;

/// The entities marked backward, by the tables and by the full list.
fn backward_marks(file: &FileBuilder, entity: u32, time: u32) -> Vec<u32> {
    let (_, tables, list) = taken_in(file.clone());
    let marked = marks_of(&backward(&tables, entity, time).2);
    let by_list = list.backward_entities(entity as u16, time);
    assert!(by_list.into_iter().map(u32::from).eq(marked.clone()));
    marked
}

/// The entities marked forward and the intake, by the tables and by the full
/// list.
fn forward_marks(file: &FileBuilder, entity: u32, time: u32) -> (Vec<u32>, u32) {
    let (_, tables, list) = taken_in(file.clone());
    let of_tables = forward(&tables, &[entity], time);
    let mut marks = vec![7; of_tables.marks.len()];
    let of_list = list.forward(&[entity], time, of_tables.work.len(), &mut marks);
    assert_eq!((of_list, &marks), (of_tables.answer, &of_tables.marks));
    (marks_of(&marks), of_list.intake)
}

/// An event never follows one accepted after it.
#[test]
fn the_order_inside_a_tick_decides() {
    let write_first = declarations().write(1, 2, 1).read(0, 1, 1);
    assert_eq!(forward_marks(&write_first, 0, 0), (vec![0, 1], 0));
    assert_eq!(backward_marks(&write_first, 2, 1), [1, 2]);
    assert_eq!(backward_marks(&write_first, 1, 1), [0, 1]);
    let read_first = declarations().read(0, 1, 1).write(1, 2, 1);
    assert_eq!(forward_marks(&read_first, 0, 0), (vec![0, 1, 2], 0));
    assert_eq!(backward_marks(&read_first, 2, 1), [0, 1, 2]);
}

/// The writes are equal, and the read comes between them.
#[test]
fn equal_events_are_different_events() {
    let file = declarations().write(1, 2, 1).read(0, 1, 1).write(1, 2, 1);
    let (_, tables, list) = taken_in(file.clone());
    let events = list.events();
    assert_eq!(events[0], events[2]);
    assert_eq!(reached_from(0, &events), [0, 1, 2].into());
    assert_eq!(leading_to(2, &events), [0, 1, 2].into());
    assert_eq!(leading_to(2, &events[..2]), [1, 2].into());
    assert_eq!((tables.counts.edges, tables.counts.versions), (3, 6));
    assert_eq!(backward_marks(&file, 2, 1), [0, 1, 2]);
}

/// Just after the last kept intake up to the time, not just after the tick and
/// not at the first intake of it.
#[test]
fn forward_at_a_tied_time() {
    let file = tick_with_two_intakes();
    let tables = taken_in(file.clone()).1;
    assert_eq!(tables.view().version(5).numbers(), [1, 6, 6, 1]);
    assert_eq!(forward_marks(&file, 1, 5), (vec![1, 2, 4], 0));
    assert_eq!(forward_marks(&file, 1, 6), (vec![1, 4], 6));
    assert_eq!(forward_marks(&file, 1, 7), (vec![1, 4], 6));
    assert_eq!(forward_marks(&file, 0, 6), (vec![0, 1, 2, 4], 0));
    assert_eq!(forward_marks(&file, 3, 6), (vec![1, 3, 4], 0));
}

#[test]
fn backward_at_a_tied_time() {
    let file = tick_with_two_intakes();
    assert_eq!(backward_marks(&file, 4, 5), [4]);
    assert_eq!(backward_marks(&file, 4, 6), [0, 1, 3, 4]);
    assert_eq!(backward_marks(&file, 4, 7), [0, 1, 3, 4]);
    assert_eq!(backward_marks(&file, 2, 6), [0, 1, 2]);
}

/// A chain of previous whose versions all start in one tick.
#[test]
fn several_versions_of_one_tick() {
    let file = declarations().read(0, 1, 3).write(1, 2, 3);
    let file = file.read(3, 1, 3).write(1, 2, 3).read(4, 1, 3);
    let tables = taken_in(file.clone()).1;
    let starts = [1, 5, 6].map(|number| tables.view().version(number).start);
    let previous = [5, 6].map(|number| tables.view().version(number).previous);
    assert_eq!((starts, previous), ([0, 3, 3], [1, 5]));
    assert_eq!(forward_marks(&file, 1, 3), (vec![1], 3));
    assert_eq!(forward_marks(&file, 1, 2), (vec![1, 2], 0));
    assert_eq!(backward_marks(&file, 1, 3), [0, 1, 3, 4]);
    assert_eq!(backward_marks(&file, 1, 2), [1]);
}

/// Read 0 to 1 and write 1 to 0, both at 1. Over events at 1 or later the full
/// answer for 0 has 1 too; the forward answer at 1 has not.
#[test]
fn never_less_over_later_events_but_not_over_those_of_the_tick() {
    let file = declarations().read(0, 1, 1).write(1, 0, 1);
    let list = taken_in(file.clone()).2;
    assert_eq!(forward_marks(&file, 0, 1), (vec![0], 1));
    assert_eq!(forward_marks(&file, 0, 0), (vec![0, 1], 0));
    let mut events = list.events();
    assert!(events.iter().all(|event| event.time == 1));
    assert_eq!(reached_from(0, &events), [0, 1].into());
    events.retain(|event| event.time > 1);
    assert_eq!(reached_from(0, &events), [0].into());
}

#[test]
fn traces_at_the_greatest_time() {
    let file = declarations().read(0, 1, u32::MAX).write(1, 2, u32::MAX);
    let file = file.read(3, 1, u32::MAX);
    assert_eq!(backward_marks(&file, 2, u32::MAX), [0, 1, 2]);
    assert_eq!(backward_marks(&file, 2, u32::MAX - 1), [2]);
    assert_eq!(forward_marks(&file, 1, u32::MAX), (vec![1], u32::MAX));
    assert_eq!(forward_marks(&file, 1, u32::MAX - 1), (vec![1, 2], 0));
}
