//! `take --remove` when a call on files fails, each in turn: exit 7, the trail whole, no recording lost before the trail has it.

use crate::common::removal::{Left, Removal};
use crate::common::run::{program, run, DONE, INPUT_OUTPUT};
use crate::common::say;
use crate::common::strace::{calls, tampered, traced, works, Call};
use std::fs;

/// Calls whose failure may not pass unseen.
const CALLS: &str =
    "openat,read,write,flock,fsync,fdatasync,rename,renameat,renameat2,unlink,unlinkat";

#[test]
fn a_failed_call_is_told_and_loses_nothing() {
    if !works() {
        say("failing calls: not run, strace is not there or may not trace");
        return;
    }
    let removal = Removal::new(7, 60);
    let folder = removal.lay();
    let log = folder.join("calls");
    run(&mut traced(&removal.take(&folder), CALLS, &log)).expect(DONE);
    let mut taken = [0; 4];
    for call in calls(&log, "/lock\"") {
        taken[with_failing(&removal, &call).taken] += 1;
    }
    let [old, one, two, new] = taken;
    say(&format!(
        "each call on files failed in turn: {} runs; {old} left the old state, {new} the new one, \
         {} that with the recordings before one that could not be read",
        taken.iter().sum::<usize>(),
        one + two
    ));
    assert!(taken.iter().all(|count| *count > 0));
}

/// The new state is read back on another thread: its first read is made to fail, then the one after it.
#[test]
fn a_state_that_cannot_be_read_back_takes_no_place() {
    if !works() {
        say("a state not read back: not run, strace is not there or may not trace");
        return;
    }
    let removal = Removal::new(11, 60);
    for number in [1, 2] {
        let folder = removal.lay();
        let (new, log) = (folder.trail().join("state.new"), folder.join("calls"));
        let take = removal.take(&folder);
        let failing = tampered(&take, "read", number, "error=EIO", &log);
        let mut strace = program("strace");
        strace.arg("-P").arg(&new).args(failing.get_args());
        strace.current_dir(take.get_current_dir().unwrap());
        let ended = run(&mut strace).expect(INPUT_OUTPUT);
        ended.says(&["cannot be read back", "stays as it was"]);
        assert!(fs::read_to_string(log).unwrap().contains("INJECTED"));
        assert_eq!(removal.check(&folder), Left::OLD);
        assert!(!new.exists());
        removal.finish(&folder);
    }
}

fn with_failing(removal: &Removal, call: &Call) -> Left {
    let folder = removal.lay();
    let log = folder.join("calls");
    let ended = run(&mut tampered(
        &removal.take(&folder),
        &call.name,
        call.number,
        "error=EIO",
        &log,
    ));
    let text = fs::read_to_string(log).unwrap();
    assert!(text.contains("INJECTED"), "no call failed: {call:?}");
    let left = removal.check(&folder);
    // One that fails in any run, as that for a file that need not be there, may fail in another way and all be done.
    let may_fail = call.text.contains(" = -1 ") && left == Left::DONE;
    let code = if may_fail { DONE } else { INPUT_OUTPUT };
    assert_eq!(ended.code(), code, "{call:?}: {ended:?}");
    let is_recording = [".slt", ".names", ".start"]
        .iter()
        .any(|file| call.text.contains(file));
    assert!(
        [0, 3].contains(&left.taken) || is_recording,
        "more than one commit: {call:?}"
    );
    removal.finish(&folder);
    left
}
