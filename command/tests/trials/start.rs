//! The start of a trail, the times of files moved to it, and the moments asked about.

use crate::common::folder::Folder;
use crate::common::recording::{worked, Files, Recording};
use crate::common::recordings::{moment, START};
use crate::common::run::{DONE, FULL, NOT_FOUND, REFUSED, USAGE};
use std::fs;

/// A program writes a file.
fn write(start: Option<&str>, report: &str, time: u32) -> Recording {
    let mut recording = Recording {
        start: start.map(str::to_string),
        ..Recording::default()
    };
    let program = recording.subject("/bin/stager[7]");
    let report = recording.object(report);
    recording.write(program, report, time);
    recording
}

/// Hundredths from 1970 to the start of the trials.
const START_HUNDREDTHS: i64 = 179_494_324_512;

#[test]
fn the_start_is_that_of_the_first_file() {
    let folder = Folder::new();
    assert_eq!(
        (folder.state_file().has_start, folder.state_file().start),
        (0, 0)
    );
    folder.take(&worked(), "night").expect(DONE);
    assert_eq!(
        (folder.state_file().has_start, folder.state_file().start),
        (1, START_HUNDREDTHS)
    );
}

#[test]
fn the_start_given_at_the_making() {
    let folder = Folder::empty();
    folder
        .run(["init", "--start", "2026-11-17T19:20:45.00"])
        .expect(DONE);
    assert_eq!(folder.state_file().start, START_HUNDREDTHS - 12);
    folder.take(&worked(), "night").expect(DONE);
    let state = folder.state_file();
    assert_eq!(
        (state.start, state.counts[4]),
        (START_HUNDREDTHS - 12, 12 + 7)
    );
    let times: Vec<u32> = state.edges.iter().map(|edge| edge[3]).collect();
    assert_eq!(times, [13, 14, 17, 18]);
}

#[test]
fn shorter_starts() {
    for (start, hundredths) in [
        ("2026-11-17", 179_487_360_000),
        ("2026-11-17T19:20", 179_494_320_000),
        ("2026-11-17 19:20:45", 179_494_324_500),
        ("1970-01-01", 0),
        ("2000-02-29T23:59:59.99", 95_186_879_999),
        ("2099-12-31T23:59:59.99", 410_244_479_999),
    ] {
        let folder = Folder::empty();
        folder.run(["init", "--start", start]).expect(DONE);
        assert_eq!(folder.state_file().start, hundredths, "{start}");
    }
}

#[test]
fn starts_that_are_no_moment() {
    for start in [
        "",
        "soon",
        "12",
        "2026-02-30",
        "2026-11-17T",
        "1969-12-31",
        "2100-01-01",
        "2026-11-17T19:20:45.12Z",
        "2026-1-7",
    ] {
        let folder = Folder::empty();
        folder.run(["init", "--start", start]).expect(USAGE);
        assert!(!folder.trail().exists(), "{start}");
    }
}

/// A file without a start has the trail's own times; one with a start cannot be placed in a trail that has records and no start.
#[test]
fn a_trail_without_a_start() {
    let folder = Folder::new();
    folder
        .take(&write(None, "/data/one", 5), "one")
        .expect(DONE);
    folder
        .take(&write(None, "/data/two", 9), "two")
        .expect(DONE);
    let state = folder.state_file();
    assert_eq!((state.has_start, state.counts[4]), (0, 9));
    folder.put(&write(Some(START), "/data/three", 20), "three");
    let run = folder.json(["take", "three.slt"]).expect(REFUSED);
    run.error();
    folder
        .run(["take", "three.slt"])
        .expect(REFUSED)
        .says(&["start"]);
    assert_eq!(folder.state_file(), state);
    folder.run(["back", "two", "--at", "5"]).expect(DONE);
    folder
        .run(["back", "two", "--at", "2026-11-17"])
        .expect(USAGE)
        .says(&["start"]);
    folder.run(["log", "kept.slt"]).expect(DONE);
    assert!(!folder.join("kept.start").exists());
    assert!(fs::metadata(folder.join("kept.names")).is_ok());
}

#[test]
fn a_file_without_a_start_in_a_trail_with_one() {
    let folder = Folder::with(&worked());
    folder
        .take(&write(None, "/data/one", 50), "one")
        .expect(DONE);
    assert_eq!(folder.state_file().counts[4], 50);
}

/// Times are 32-bit: some 497 days after the start they end.
#[test]
fn a_time_past_the_last_one() {
    let folder = Folder::with(&worked());
    let end = "2028-03-28T21:48:38.06";
    // So many hundredths after the start is 2^32-2.
    folder.put(&write(Some(end), "/data/one", 2), "past");
    let before = folder.contents();
    let run = folder.json(["take", "--remove", "past.slt"]).expect(FULL);
    run.error();
    folder
        .run(["take", "past.slt"])
        .expect(FULL)
        .says(&["past.slt"]);
    assert!(folder.contents() == before);
    folder
        .take(&write(Some(end), "/data/one", 1), "last")
        .expect(DONE);
    assert_eq!(folder.state_file().counts[4], u32::MAX);
    folder.run(["back", "one"]).expect(DONE);
    folder
        .run(["back", "one", "--at", "4294967295"])
        .expect(DONE);
    // A start that only lies past the end, as the file has no events.
    let mut empty = Recording::at("2099-01-01T00:00:00.00");
    empty.object("/data/late");
    folder.take(&empty, "empty").expect(DONE);
    folder.run(["check", "--deep"]).expect(DONE);
}

#[test]
fn times_are_printed_as_moments_if_there_is_a_start() {
    let folder = Folder::with(&worked());
    folder.run(["stats"]).expect(DONE).says(&[&moment(7)]);
    let without = Folder::new();
    let mut files: Files = worked().files();
    files.start = None;
    without.take_files(&files, "night").expect(DONE);
    assert!(!without
        .run(["stats"])
        .expect(DONE)
        .out_text()
        .contains("2026"));
}

#[test]
fn a_trail_without_records_answers() {
    let folder = Folder::new();
    for call in [
        &["list"][..],
        &["stats"],
        &["check"],
        &["check", "--deep"],
        &["log", "kept.slt"],
    ] {
        folder.run(call).expect(DONE);
    }
    folder.run(["back", "report"]).expect(NOT_FOUND);
    folder.run(["back", "#0"]).expect(NOT_FOUND);
}
