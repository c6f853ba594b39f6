//! Folders and files without rights: exit 7, and nothing is lost.

use crate::common::folder::Folder;
use crate::common::recording::{is_gone, worked, Files, Recording};
use crate::common::recordings::moment;
use crate::common::run::{program, run, Run, DONE, INPUT_OUTPUT, TRAIL};
use std::fs::{self, Permissions};
use std::os::unix::fs::{MetadataExt, PermissionsExt};
use std::os::unix::process::CommandExt;
use std::path::Path;

const NOBODY: u32 = 65534;

fn set(path: &Path, mode: u32) {
    fs::set_permissions(path, Permissions::from_mode(mode)).unwrap();
}

fn is_root(folder: &Folder) -> bool {
    fs::metadata(folder.path()).unwrap().uid() == 0
}

/// Runs a copy of the command, in a folder that everyone may enter, as a user without special rights: nobody, who owns none of the
/// files, if root runs the trial. Another process copies it: a program that this one has open for writing, or one of its children
/// for a moment, cannot be run.
fn run_as_other(folder: &Folder, arguments: &[&str]) -> Run {
    let place = tempfile::tempdir().unwrap();
    let copy = place.path().join("command");
    run(program("cp").arg(TRAIL).arg(&copy)).expect(DONE);
    set(place.path(), 0o755);
    set(&copy, 0o755);
    let mut command = program(&copy);
    command
        .args(["--trail", "trail"])
        .args(arguments)
        .current_dir(folder.path());
    if is_root(folder) {
        command.uid(NOBODY).gid(NOBODY);
    }
    run(&mut command)
}

fn next() -> Recording {
    let mut next = Recording::at(&moment(6000));
    next.object("/data/next");
    next
}

/// A trail and a recording that everyone may read, and the trail's folder with this mode.
fn folder(mode: u32) -> Folder {
    let folder = Folder::with(&worked());
    folder.put(&next(), "next");
    set(folder.path(), 0o755);
    set(&folder.trail(), mode);
    folder
}

#[test]
fn a_read_only_folder_takes_nothing_in() {
    let folder = folder(0o555);
    for file in ["lock", "state"] {
        set(&folder.trail().join(file), 0o444);
    }
    let before = folder.state();
    run_as_other(&folder, &["take", "next.slt"]).expect(INPUT_OUTPUT);
    run_as_other(&folder, &["sign", "#0"]).expect(INPUT_OUTPUT);
    assert!(folder.state() == before);
    for reader in [&["check"][..], &["stats"], &["list"], &["back", "report"]] {
        run_as_other(&folder, reader).expect(DONE);
    }
    set(&folder.trail(), 0o755);
}

#[test]
fn a_lock_that_may_be_taken_in_a_folder_that_may_not_be_written() {
    let folder = folder(0o555);
    set(&folder.trail().join("lock"), 0o666);
    set(&folder.trail().join("state"), 0o444);
    let before = folder.state();
    run_as_other(&folder, &["take", "--remove", "next.slt"]).expect(INPUT_OUTPUT);
    assert!(folder.state() == before);
    assert_eq!(Files::get(&folder.join("next.slt")), Some(next().files()));
    set(&folder.trail(), 0o755);
}

#[test]
fn a_state_that_may_not_be_read() {
    let folder = folder(0o777);
    set(&folder.state_path(), 0o000);
    set(&folder.trail().join("lock"), 0o666);
    for call in [
        &["check"][..],
        &["stats"],
        &["list"],
        &["back", "report"],
        &["take", "next.slt"],
    ] {
        run_as_other(&folder, call).expect(INPUT_OUTPUT);
    }
    set(&folder.state_path(), 0o644);
    folder.run(["check"]).expect(DONE);
}

#[test]
fn a_folder_that_may_not_be_entered() {
    let folder = folder(0o000);
    for call in [&["check"][..], &["stats"], &["take", "next.slt"]] {
        run_as_other(&folder, call).expect(INPUT_OUTPUT);
    }
    set(&folder.trail(), 0o755);
    folder.run(["check"]).expect(DONE);
}

#[test]
fn a_recording_that_may_not_be_read() {
    let folder = folder(0o777);
    set(&folder.trail().join("lock"), 0o666);
    for file in ["next.slt", "next.names", "next.start"] {
        set(&folder.join(file), 0o000);
        let before = folder.state();
        let ended = run_as_other(&folder, &["take", "next.slt"]).expect(INPUT_OUTPUT);
        ended.says(&[file]);
        assert!(folder.state() == before, "{file}");
        set(&folder.join(file), 0o644);
    }
}

/// The trail is safe, so the recording may go; it cannot, and that is told.
#[test]
fn a_recording_that_may_not_be_removed() {
    let folder = folder(0o777);
    set(&folder.trail().join("lock"), 0o666);
    let nights = folder.join("nights");
    fs::create_dir(&nights).unwrap();
    next().put(&nights, "next");
    set(&nights, 0o555);
    let ended =
        run_as_other(&folder, &["take", "--remove", "nights/next.slt"]).expect(INPUT_OUTPUT);
    ended.says(&["next.slt"]);
    assert!(
        folder.state_file().has_taken(&next().files()),
        "the trail has it"
    );
    assert_eq!(Files::get(&nights.join("next.slt")), Some(next().files()));
    set(&nights, 0o777);
    run_as_other(&folder, &["take", "--remove", "nights/next.slt"]).expect(DONE);
    assert!(is_gone(&nights.join("next.slt")));
}

#[test]
fn a_log_into_a_folder_that_may_not_be_written() {
    let folder = folder(0o755);
    let kept = folder.join("kept");
    fs::create_dir(&kept).unwrap();
    set(&kept, 0o555);
    run_as_other(&folder, &["log", "kept/log.slt"]).expect(INPUT_OUTPUT);
    assert_eq!(fs::read_dir(&kept).unwrap().count(), 0);
    set(&kept, 0o755);
}

#[test]
fn a_trail_made_where_nothing_may_be_made() {
    let folder = Folder::empty();
    set(folder.path(), 0o555);
    run_as_other(&folder, &["init"]).expect(INPUT_OUTPUT);
    assert!(!folder.trail().exists());
    set(folder.path(), 0o755);
}
