use super::run;
use crate::failure::Exit;
use crate::folder;
use crate::init;
use crate::recording::sample::Sample;
use crate::report::Report;
use serde_json::{json, Value};
use std::ffi::OsStr;
use std::fs;
use std::os::unix::ffi::OsStrExt;
use std::path::{Path, PathBuf};
use tempfile::TempDir;

/// A folder with an empty trail in `trail`.
pub fn dir() -> (TempDir, PathBuf) {
    let dir = tempfile::tempdir().unwrap();
    let trail = dir.path().join("trail");
    init::run(&trail, None).unwrap();
    (dir, trail)
}

pub fn night(program: &str, time: u32) -> Sample {
    let sample = Sample::new()
        .object("/study")
        .subject(program)
        .object("/report;1");
    sample.read(0, 1, time).write(1, 2, time + 1)
}

fn results(report: &Report) -> Vec<String> {
    let files = report.json["files"].as_array().unwrap();
    files
        .iter()
        .map(|file| file["result"].as_str().unwrap().to_string())
        .collect()
}

pub fn names(list: &Value) -> Vec<String> {
    let name = |file: &Value| {
        Path::new(file["file"].as_str().unwrap())
            .file_name()
            .unwrap()
            .to_str()
            .unwrap()
            .to_string()
    };
    list.as_array().unwrap().iter().map(name).collect()
}

fn taken(trail: &Path) -> usize {
    folder::read(trail).unwrap().taken.len()
}

#[test]
fn each_file_is_said() {
    let (dir, trail) = dir();
    let files = [
        night("/x[1];1", 5).save(dir.path(), "1.slt"),
        night("/x[2];1", 7).save(dir.path(), "2.slt"),
    ];
    let report = run(&trail, &files, false).unwrap();
    assert!(report.failure.is_none());
    let expected = json!({
        "file": files[1].to_str().unwrap(), "result": "taken", "records": 5, "events": 2, "kept": 2, "entities": 2,
    });
    assert_eq!(report.json["files"][1], expected);
    assert_eq!(names(&report.json["committed"]), ["1.slt", "2.slt"]);
    assert_eq!(report.json["counts"]["accepted"], json!(4));
    let lines: Vec<_> = report
        .text
        .lines()
        .map(|line| line.replace(&format!("{}/", dir.path().display()), ""))
        .collect();
    let expected = [
        "1.slt: 2 events taken in, 2 kept, 3 new entities",
        "2.slt: 2 events taken in, 2 kept, 2 new entities",
        "the trail: 5 entities, 4 events, 4 kept, the last at 8",
    ];
    assert_eq!(lines, expected);
    assert_eq!(taken(&trail), 2);
}

#[test]
fn a_refused_file_ends_the_list_and_those_before_it_stay() {
    let (dir, trail) = dir();
    let files = [
        night("/x[1];1", 5).save(dir.path(), "a.slt"),
        night("/x[2];1", 7).read(0, 9, 9).save(dir.path(), "b.slt"),
        night("/x[3];1", 9).save(dir.path(), "c.slt"),
    ];
    let report = run(&trail, &files, true).unwrap();
    assert_eq!(results(&report), ["taken", "refused", "not tried"]);
    assert_eq!(report.json["files"][1]["refusal"], json!(5));
    assert_eq!(report.json["files"][1]["record"], json!(6));
    assert_eq!(report.json["files"][1]["byte"], json!(68));
    assert_eq!(names(&report.json["committed"]), ["a.slt"]);
    assert_eq!(names(&report.json["removed"]), ["a.slt", "a.names"]);
    let failure = report.failure.unwrap();
    assert_eq!(failure.exit, Exit::Refused);
    assert!(failure
        .message
        .ends_with("\nThe 1 file before it is in the trail; the 1 file after it was not tried."));
    assert_eq!(failure.details["file"], json!(files[1].to_str().unwrap()));
    let state = folder::read(&trail).unwrap();
    assert_eq!((state.taken.len(), state.trail.counts().accepted), (1, 2));
    assert!(!files[0].exists() && files[1].exists() && files[2].exists());
    assert!(dir.path().join("b.names").exists());
}

#[test]
fn a_file_that_is_refused_first_changes_nothing() {
    let (dir, trail) = dir();
    let before = fs::read(trail.join("state")).unwrap();
    let file = night("/x[2];1", 7).read(0, 9, 9).save(dir.path(), "b.slt");
    let report = run(&trail, std::slice::from_ref(&file), true).unwrap();
    assert_eq!(report.failure.unwrap().exit, Exit::Refused);
    assert_eq!(fs::read(trail.join("state")).unwrap(), before);
    assert!(file.exists());
}

#[test]
fn a_missing_file_ends_the_list_too() {
    let (dir, trail) = dir();
    let files = [
        night("/x[1];1", 5).save(dir.path(), "a.slt"),
        dir.path().join("none.slt"),
        night("/x[3];1", 9).save(dir.path(), "c.slt"),
    ];
    let report = run(&trail, &files, false).unwrap();
    assert_eq!(results(&report), ["taken", "unreadable", "not tried"]);
    assert_eq!(report.failure.unwrap().exit, Exit::InputOutput);
    assert_eq!(taken(&trail), 1);
}

#[test]
fn a_recording_goes_in_once() {
    let (dir, trail) = dir();
    let file = night("/x[1];1", 5).save(dir.path(), "a.slt");
    let copy = night("/x[1];1", 5).save(dir.path(), "copy.slt");
    let report = run(&trail, &[file.clone(), file.clone(), copy.clone()], false).unwrap();
    assert_eq!(results(&report), ["taken", "taken before", "taken before"]);
    assert!(
        report
            .text
            .contains(&format!("copy.slt: taken before, as {}", file.display())),
        "{}",
        report.text
    );
    let before = fs::read(trail.join("state")).unwrap();
    let report = run(&trail, &[file], false).unwrap();
    assert_eq!(results(&report), ["taken before"]);
    assert_eq!(report.json["committed"], json!([]));
    assert_eq!(report.json["files"][0]["records"], json!(5));
    assert!(report.failure.is_none());
    assert_eq!(fs::read(trail.join("state")).unwrap(), before);
}

#[test]
fn the_same_bytes_at_another_time_are_another_recording() {
    let (dir, trail) = dir();
    let files = [
        night("/x[1];1", 5)
            .start("2026-11-17T19:20:45.12")
            .save(dir.path(), "a.slt"),
        night("/x[1];1", 5)
            .start("2026-11-18T19:20:45.12")
            .save(dir.path(), "b.slt"),
    ];
    assert_eq!(fs::read(&files[0]).unwrap(), fs::read(&files[1]).unwrap());
    let report = run(&trail, &files, false).unwrap();
    assert_eq!(results(&report), ["taken", "taken"]);
    assert_eq!(folder::read(&trail).unwrap().trail.counts().accepted, 4);
}

#[test]
fn names_of_files_that_are_not_utf8_come_as_hex() {
    let (dir, trail) = dir();
    let file = dir.path().join(OsStr::from_bytes(b"\xe9.slt"));
    fs::write(&file, Sample::without_names().recording("a").file).unwrap();
    let report = run(&trail, &[file], false).unwrap();
    assert!(report.json["files"][0]["file_hex"]
        .as_str()
        .unwrap()
        .ends_with("2fe92e736c74"));
    assert!(report.json["committed"][0]["file_hex"].is_string());
    assert!(
        report.text.contains("/\\xe9.slt: 0 events taken in"),
        "{}",
        report.text
    );
    assert!(folder::read(&trail).unwrap().taken[0]
        .name
        .ends_with(b"/\xe9.slt"));
}

#[test]
fn wrong_names_and_starts_are_refused() {
    let (dir, trail) = dir();
    let file = night("/x[1];1", 5).line(b"/more").save(dir.path(), "a.slt");
    let report = run(&trail, &[file], false).unwrap();
    assert_eq!(report.failure.as_ref().unwrap().exit, Exit::Refused);
    let reason = report.json["files"][0]["reason"].as_str().unwrap();
    assert!(
        reason.ends_with("a.names: it has 4 lines, and the event file declares 3 entities"),
        "{reason}"
    );
    let file = night("/x[1];1", 5).start("noon").save(dir.path(), "b.slt");
    let report = run(&trail, &[file], false).unwrap();
    assert_eq!(report.failure.unwrap().exit, Exit::Refused);
    assert_eq!(taken(&trail), 0);
}
