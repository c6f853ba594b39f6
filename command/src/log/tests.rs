use super::run;
use crate::failure::Exit;
use crate::folder;
use crate::init;
use crate::recording::sample::Sample;
use crate::state::State;
use crate::take;
use std::ffi::OsString;
use std::fs;
use std::path::{Path, PathBuf};
use tempfile::TempDir;

/// A folder with a trail in `trail` that has these recordings.
fn with(samples: Vec<Sample>) -> (TempDir, PathBuf) {
    let dir = tempfile::tempdir().unwrap();
    let trail = dir.path().join("trail");
    init::run(&trail, None).unwrap();
    for (number, sample) in samples.into_iter().enumerate() {
        let file = sample.save(dir.path(), &format!("{number}.slt"));
        let report = take::run(&trail, &[file], true).unwrap();
        assert!(report.failure.is_none(), "{:?}", report.failure);
    }
    (dir, trail)
}

fn nights(start: bool) -> Vec<Sample> {
    let night = |program: &str, time: u32, moment: &str| {
        let sample = Sample::new()
            .object("/study")
            .subject(program)
            .object("/report;1")
            .object("");
        let sample = sample
            .read(0, 1, time)
            .read(0, 1, time + 1)
            .write(1, 2, time + 1)
            .read(3, 1, time + 2);
        if start {
            sample.start(moment)
        } else {
            sample
        }
    };
    vec![
        night("/x[1];1", 5, "2026-11-17T19:20:45.12"),
        night("/x[2];1", 9, "2026-11-18T19:20:45.12").sign(2),
    ]
}

fn taken_again(dir: &Path, log: PathBuf) -> State {
    let trail = dir.join("again");
    init::run(&trail, None).unwrap();
    let report = take::run(&trail, &[log], false).unwrap();
    assert!(report.failure.is_none(), "{:?}", report.failure);
    folder::read(&trail).unwrap()
}

fn assert_round_trip(dir: &Path, trail: &Path) {
    let log = dir.join("log.slt");
    run(trail, &log).unwrap();
    let (first, second) = (folder::read(trail).unwrap(), taken_again(dir, log));
    assert_eq!(first.start, second.start);
    assert_eq!(first.names, second.names);
    assert_eq!(first.trail.kept_log(), second.trail.kept_log());
    assert_eq!(second.trail.counts().accepted, first.trail.counts().edges);
}

fn left(dir: &Path) -> Vec<OsString> {
    let mut names: Vec<_> = fs::read_dir(dir)
        .unwrap()
        .map(|entry| entry.unwrap().file_name())
        .collect();
    names.sort();
    names
}

#[test]
fn a_fresh_trail_takes_the_log_in_with_names_and_start() {
    for start in [true, false] {
        let (dir, trail) = with(nights(start));
        assert_round_trip(dir.path(), &trail);
        let mut files = vec!["again", "log.names", "log.slt", "log.start", "trail"];
        files.retain(|file| start || *file != "log.start");
        assert_eq!(left(dir.path()), files);
    }
}

#[test]
fn a_log_without_any_name_has_no_names() {
    let sample = Sample::without_names().object("").subject("").read(0, 1, 5);
    let (dir, trail) = with(vec![sample]);
    assert_round_trip(dir.path(), &trail);
    assert_eq!(left(dir.path()), ["again", "log.slt", "trail"]);
}

#[test]
fn the_log_of_an_empty_trail_is_a_header() {
    let (dir, trail) = with(Vec::new());
    run(&trail, &dir.path().join("log.slt")).unwrap();
    assert_eq!(
        fs::read(dir.path().join("log.slt")).unwrap(),
        b"SLT\x01\0\0\0\0"
    );
}

#[test]
fn nothing_is_written_over() {
    let (dir, trail) = with(nights(true));
    for there in ["log.slt", "log.names", "log.start"] {
        let there = dir.path().join(there);
        fs::write(&there, "mine").unwrap();
        let failure = run(&trail, &dir.path().join("log.slt")).unwrap_err();
        assert_eq!(failure.exit, Exit::Usage);
        assert!(
            failure
                .message
                .ends_with("is there already; nothing was written"),
            "{}",
            failure.message
        );
        assert_eq!(fs::read(&there).unwrap(), b"mine");
        fs::remove_file(there).unwrap();
        assert_eq!(left(dir.path()), ["trail"]);
    }
}

#[test]
fn a_log_that_cannot_be_written_leaves_nothing() {
    let (dir, trail) = with(nights(true));
    let failure = run(&trail, &dir.path().join("none/log.slt")).unwrap_err();
    assert_eq!(failure.exit, Exit::InputOutput);
    assert_eq!(left(dir.path()), ["trail"]);
    let in_the_way = format!("log.slt.{}.new", std::process::id());
    fs::create_dir(dir.path().join(&in_the_way)).unwrap();
    let failure = run(&trail, &dir.path().join("log.slt")).unwrap_err();
    assert_eq!(failure.exit, Exit::InputOutput);
    assert_eq!(left(dir.path()), [in_the_way.as_str(), "trail"]);
}
