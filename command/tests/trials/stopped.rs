//! `take --remove` stopped in the middle of its commit, and a reader in the middle of its answer; what others do meanwhile.

use crate::common::recording::Files;
use crate::common::removal::{Left, Removal};
use crate::common::run::{run, ANOTHER_WRITER, DONE, REFUSED};
use crate::common::say;
use crate::common::strace::{tampered, works};
use std::fs::{self, File};
use std::path::Path;
use std::process::{Child, Command, Stdio};
use std::thread::sleep;
use std::time::Duration;

/// Starts it under strace, which stops it after the first such call; gives the process too, once it stands still.
fn stop_at(command: &Command, call: &str, log: &Path) -> (Child, String) {
    stop_printing_at(command, call, log, Stdio::null())
}

fn stop_printing_at(command: &Command, call: &str, log: &Path, out: Stdio) -> (Child, String) {
    let mut strace = tampered(command, call, 1, "signal=STOP", log);
    strace.stdout(out).stderr(Stdio::null());
    let mut child = strace.spawn().unwrap();
    loop {
        let text = fs::read_to_string(log).unwrap_or_default();
        let stopped = text
            .lines()
            .find(|line| line.contains("stopped by SIGSTOP"));
        if let Some(line) = stopped {
            return (child, line.split(' ').next().unwrap().to_string());
        }
        assert!(child.try_wait().unwrap().is_none(), "it has ended: {text}");
        sleep(Duration::from_millis(2));
    }
}

fn go_on(mut child: Child, process: &str) -> i32 {
    assert!(Command::new("kill")
        .args(["-CONT", process])
        .status()
        .unwrap()
        .success());
    child.wait().unwrap().code().unwrap()
}

#[test]
fn while_a_writer_commits_others_give_up_and_readers_go_on() {
    if !works() {
        say("stopped in the middle: not run, strace is not there or may not trace");
        return;
    }
    let committed = Left { taken: 3, files: 3 };
    for (call, meanwhile) in [("fsync", Left::OLD), ("rename", committed)] {
        let removal = Removal::new(43, 100);
        let folder = removal.lay();
        let (child, process) = stop_at(&removal.take(&folder), call, &folder.join("calls"));
        folder
            .run(["take", "--remove", "c.slt"])
            .expect(ANOTHER_WRITER);
        folder.run(["sign", "#0"]).expect(ANOTHER_WRITER);
        for reader in [
            &["check", "--deep"][..],
            &["list"],
            &["back", "#0"],
            &["stats"],
        ] {
            folder.run(reader).expect(DONE);
        }
        assert_eq!(removal.check(&folder), meanwhile, "{call}");
        assert_eq!(go_on(child, &process), DONE, "{call}");
        assert_eq!(removal.check(&folder), Left::DONE, "{call}");
    }
}

/// A reader has its file open and held when it starts its first thread. A writer puts another file in its place, and does not wait.
#[test]
fn a_stopped_reader_holds_no_writer_up_and_keeps_its_answer() {
    if !works() {
        say("a stopped reader: not run, strace is not there or may not trace");
        return;
    }
    let removal = Removal::new(53, 100);
    let folder = removal.lay();
    let asked = ["list", "--json"];
    let before = folder.run(asked).expect(DONE).out;
    let (printed, log) = (folder.join("printed"), folder.join("calls"));
    let out = File::create(&printed).unwrap().into();
    let (child, process) = stop_printing_at(&folder.command(asked), "clone,clone3", &log, out);
    run(&mut removal.take(&folder)).expect(DONE);
    assert_eq!(removal.check(&folder), Left::DONE);
    assert_ne!(folder.run(asked).expect(DONE).out, before);
    assert_eq!(go_on(child, &process), DONE);
    assert!(fs::read(&printed).unwrap() == before);
}

type Change = (&'static str, fn(&Path));

/// A recording that grew, changed or lost a file after it was read is not deleted, and that is told.
#[test]
fn a_recording_that_changed_after_it_was_read_stays() {
    if !works() {
        say("changed after it was read: not run, strace is not there or may not trace");
        return;
    }
    let removal = Removal::new(47, 100);
    let changes: [Change; 4] = [
        ("it grew", |path| {
            let mut bytes = fs::read(path).unwrap();
            bytes.extend([0; 12]);
            fs::write(path, bytes).unwrap();
        }),
        ("another name", |path| {
            fs::write(path.with_extension("names"), "other\n").unwrap()
        }),
        ("another start", |path| {
            fs::write(path.with_extension("start"), "2026-11-18T00:00:00.00\n").unwrap()
        }),
        ("no start", |path| {
            fs::remove_file(path.with_extension("start")).unwrap()
        }),
    ];
    for (what, change) in changes {
        let folder = removal.lay();
        let paths = removal.paths(&folder);
        let (child, process) = stop_at(&removal.take(&folder), "rename", &folder.join("calls"));
        change(&paths[1]);
        let changed = Files::get(&paths[1]);
        assert_eq!(go_on(child, &process), REFUSED, "{what}");
        assert_eq!(removal.check(&folder).taken, 3, "{what}");
        assert!(
            Files::get(&paths[1]) == changed,
            "{what}: it stays as it is"
        );
        assert!(!paths[0].exists(), "{what}: the one before it goes");
    }
}
