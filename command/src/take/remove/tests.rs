use super::remove;
use crate::failure::Exit;
use crate::take::run;
use crate::take::tests::{dir, names, night};
use std::fs;

#[test]
fn what_is_in_the_trail_is_deleted_on_demand() {
    let (dir, trail) = dir();
    let first = night("/x[1];1", 5)
        .start("2026-11-17T19:20:45.12")
        .save(dir.path(), "a.slt");
    let copy = night("/x[1];1", 5)
        .start("2026-11-17T19:20:45.12")
        .save(dir.path(), "copy.slt");
    fs::write(dir.path().join("a.txt"), "another").unwrap();
    let report = run(&trail, &[first.clone(), first, copy], true).unwrap();
    assert!(report.failure.is_none(), "{:?}", report.failure);
    let removed = [
        "a.slt",
        "a.names",
        "a.start",
        "copy.slt",
        "copy.names",
        "copy.start",
    ];
    assert_eq!(names(&report.json["removed"]), removed);
    assert!(report.text.contains("copy.slt: taken before, as"));
    assert!(report.text.contains("; deleted\n"));
    let mut left: Vec<_> = fs::read_dir(dir.path())
        .unwrap()
        .map(|entry| entry.unwrap().file_name())
        .collect();
    left.sort();
    assert_eq!(left, ["a.txt", "trail"]);
}

#[test]
fn what_changed_is_not_deleted() {
    let (dir, _) = dir();
    let file = night("/x[1];1", 5).save(dir.path(), "a.slt");
    let mut removed = Vec::new();
    let failure = remove(&file, &[0; 32], &mut removed).unwrap_err();
    assert_eq!(failure.exit, Exit::Refused);
    assert!(
        failure
            .message
            .ends_with("a.slt changed after it was taken in, and was not deleted"),
        "{}",
        failure.message
    );
    assert!(removed.is_empty() && file.exists());
    remove(&dir.path().join("none.slt"), &[0; 32], &mut removed).unwrap();
}
