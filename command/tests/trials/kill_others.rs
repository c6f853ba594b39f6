//! `init`, `sign` and `log` ended by kill -9 before each of their calls on files in turn.

use crate::common::folder::Folder;
use crate::common::recording::{worked, Files};
use crate::common::run::{run, DONE, NOT_FOUND, USAGE};
use crate::common::say;
use crate::common::strace::{calls, tampered, traced, works, ON_FILES};
use std::os::unix::process::ExitStatusExt;

/// Kills it before each of its calls on files in turn, in a folder of its own each time; gives how often.
fn kill_each(make: impl Fn() -> Folder, arguments: &[&str], check: impl Fn(&Folder)) -> usize {
    let folder = make();
    let log = tempfile::NamedTempFile::new().unwrap();
    run(&mut traced(
        &folder.command(arguments),
        ON_FILES,
        log.path(),
    ))
    .expect(DONE);
    check(&folder);
    let calls = calls(log.path(), "/trail/");
    let mut kills = 0;
    for call in &calls {
        let folder = make();
        let command = folder.command(arguments);
        let status = tampered(&command, &call.name, call.number, "signal=KILL", log.path())
            .output()
            .unwrap()
            .status;
        // What the allocator does differs a little from run to run, so that a call may not be reached.
        assert!(
            status.signal() == Some(9) || status.code() == Some(DONE),
            "{call:?}"
        );
        kills += usize::from(status.signal() == Some(9));
        check(&folder);
    }
    assert!(kills > calls.len() / 2);
    kills
}

/// There is no trail yet, or an empty one.
fn check_init(folder: &Folder) {
    let made = folder.run(["check"]).code();
    assert!([DONE, NOT_FOUND].contains(&made), "{made}");
    let again = folder.run(["init"]).code();
    assert_eq!(again, if made == DONE { USAGE } else { DONE });
    folder.take(&worked(), "night").expect(DONE);
}

/// The log is there with names and start, or not at all.
fn check_log(folder: &Folder, kept: &Files) {
    folder.run(["check"]).expect(DONE);
    if let Some(found) = Files::get(&folder.join("kept.slt")) {
        assert!(found == *kept, "a log that is not whole");
    }
}

#[test]
fn killed_at_each_call_init_sign_and_log_leave_nothing_half_done() {
    if !works() {
        say("kill -9 of init, sign and log: not run, strace is not there or may not trace");
        return;
    }
    let init = kill_each(Folder::empty, &["init"], check_init);
    let whole = Folder::with(&worked());
    whole.run(["log", "kept.slt"]).expect(DONE);
    let kept = Files::get(&whole.join("kept.slt")).unwrap();
    let before = whole.state();
    whole.run(["sign", "report"]).expect(DONE);
    let after = whole.state();
    let sign = kill_each(
        || Folder::with(&worked()),
        &["sign", "report"],
        |folder| {
            folder.run(["check"]).expect(DONE);
            assert!([&before, &after].contains(&&folder.state()));
        },
    );
    let log = kill_each(
        || Folder::with(&worked()),
        &["log", "kept.slt"],
        |folder| check_log(folder, &kept),
    );
    say(&format!(
        "kill -9 before each call on files: {init} kills of init, {sign} of sign, {log} of log"
    ));
}
