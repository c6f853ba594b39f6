//! A clone is a trail of its own, and the tables are copied only where that shows.

use crate::common::{worked_file, worked_trail};
use trail::{DeclaredSort, EntityNo, EventFile, Kind, Time, Trail};

/// A montage more, which the stager reads.
fn more() -> Vec<u8> {
    let mut file = EventFile::new();
    file.declare(4, DeclaredSort::Object);
    file.event(Kind::Read, 4, 1, Time(8));
    file.event(Kind::Write, 1, 2, Time(9));
    file.into_bytes()
}

fn rows(trail: &Trail) -> (trail::Counts, Vec<u32>, Vec<u32>, Vec<u32>) {
    (
        trail.counts(),
        trail.entity_rows().to_vec(),
        trail.version_rows().to_vec(),
        trail.edge_rows().to_vec(),
    )
}

#[test]
fn a_batch_on_the_clone_leaves_the_original() {
    let original = worked_trail();
    let before = rows(&original);
    let mut clone = original.clone();
    clone.batch(&more()).unwrap();
    assert_eq!(rows(&original), before);
    assert_eq!(original.backward(EntityNo(2), Time(9)).unwrap().count(), 4);
    assert_eq!(clone.backward(EntityNo(2), Time(9)).unwrap().count(), 5);
}

#[test]
fn a_batch_on_the_original_leaves_the_clone() {
    let mut original = worked_trail();
    let clone = original.clone();
    let before = rows(&clone);
    original.batch(&more()).unwrap();
    assert_eq!(rows(&clone), before);
    assert_eq!(original.counts().entities, 5);
}

#[test]
fn a_refused_batch_on_the_clone_leaves_the_original() {
    let original = worked_trail();
    let before = rows(&original);
    let mut clone = original.clone();
    let mut file = more();
    file.push(0);
    assert_eq!(clone.batch(&file).unwrap_err().taken.records, 3);
    assert_eq!(rows(&original), before);
}

#[test]
fn a_clone_outlives_the_original() {
    let original = worked_trail();
    let mut clone = original.clone();
    drop(original);
    clone.batch(&more()).unwrap();
    assert_eq!(clone.counts().edges, 6);
}

#[test]
fn clones_of_clones_grow_apart() {
    let first = Trail::new().unwrap();
    let mut second = first.clone();
    second.batch(&worked_file()).unwrap();
    let mut third = second.clone();
    third.batch(&more()).unwrap();
    assert_eq!(first.counts().entities, 0);
    assert_eq!(second.counts().entities, 4);
    assert_eq!(third.counts().entities, 5);
    assert_eq!(rows(&second), rows(&worked_trail()));
}

/// Where the tables stand in memory.
fn place(trail: &Trail) -> *const u32 {
    trail.edge_rows().as_ptr()
}

#[test]
fn tables_are_copied_for_a_shared_batch_alone() {
    let mut trail = worked_trail();
    let at = place(&trail);
    for time in 8..100 {
        trail.forward(&[EntityNo(0)], Time(time)).unwrap();
        let mut file = EventFile::new();
        file.event(Kind::Read, 0, 1, Time(time));
        trail.batch(file.as_bytes()).unwrap();
        assert_eq!(place(&trail), at);
    }
    let mut clone = trail.clone();
    assert_eq!(place(&clone), at);
    clone.batch(&EventFile::new().into_bytes()).unwrap();
    assert_ne!(place(&clone), at);
    assert_eq!(place(&trail), at);
}
