//! Standard output that takes nothing: a full device is exit 7, a closed pipe is quiet.

use crate::common::folder::Folder;
use crate::common::recording::worked;
use crate::common::run::{run, DONE, INPUT_OUTPUT, TRAIL};
use std::fs::{self, File};
use std::io;
use std::process::Command;

const CALLS: [&[&str]; 12] = [
    &["list"],
    &["stats"],
    &["stats", "--paper"],
    &["check"],
    &["check", "--deep"],
    &["back", "report"],
    &["forward", "study"],
    &["take", "first.slt"],
    &["completions", "bash"],
    &["--help"],
    &["--version"],
    &["take", "--help"],
];

#[test]
fn a_full_device_is_told() {
    let folder = Folder::with(&worked());
    for call in CALLS {
        for json in [&[][..], &["--json"]] {
            let full = File::options().write(true).open("/dev/full").unwrap();
            let ended = run(folder.command(call.iter().chain(json)).stdout(full));
            assert_eq!(ended.code(), INPUT_OUTPUT, "{call:?} {json:?}: {ended:?}");
            assert!(!ended.err.is_empty(), "{call:?} {json:?} says nothing");
        }
    }
}

#[test]
fn a_full_device_loses_no_recording() {
    let folder = Folder::new();
    folder.put(&worked(), "night");
    let full = File::options().write(true).open("/dev/full").unwrap();
    run(folder
        .command(["take", "--remove", "night.slt"])
        .stdout(full))
    .expect(INPUT_OUTPUT);
    let taken = folder.state_file().has_taken(&worked().files());
    assert!(taken || folder.join("night.slt").exists());
    folder.run(["check", "--deep"]).expect(DONE);
}

#[test]
fn a_closed_pipe_is_quiet() {
    let folder = Folder::with(&worked());
    for call in CALLS {
        for json in [&[][..], &["--json"]] {
            let (reader, writer) = io::pipe().unwrap();
            drop(reader);
            let ended = run(folder.command(call.iter().chain(json)).stdout(writer));
            assert_eq!(ended.code(), DONE, "{call:?} {json:?}: {ended:?}");
            assert_eq!(ended.err_text(), "", "{call:?} {json:?}");
        }
    }
}

#[test]
fn the_first_line_of_a_long_list() {
    let folder = Folder::new();
    let mut recording = worked();
    for number in 0..3000 {
        recording.object(format!("/data/a file with a rather long name, so that the list is longer than a pipe holds {number}"));
    }
    folder.take(&recording, "long").expect(DONE);
    let script = "\"$0\" --trail trail list 2> said; echo $? > ended";
    let mut shell = Command::new("sh");
    shell
        .args(["-c", &format!("({script}) | head -n 1 > line"), TRAIL])
        .current_dir(folder.path());
    assert!(shell.status().unwrap().success());
    assert_eq!(fs::read_to_string(folder.join("ended")).unwrap(), "0\n");
    assert_eq!(fs::read_to_string(folder.join("said")).unwrap(), "");
    assert_eq!(
        fs::read_to_string(folder.join("line"))
            .unwrap()
            .lines()
            .count(),
        1
    );
}

/// A failure is told on standard error though standard output is closed.
#[test]
fn a_failure_is_told_though_the_pipe_is_closed() {
    let folder = Folder::with(&worked());
    let (reader, writer) = io::pipe().unwrap();
    drop(reader);
    let ended = run(folder
        .command(["back", "nothing of that name"])
        .stdout(writer))
    .expect(1);
    assert!(ended.err_text().starts_with("trail: "));
}
