//! `take --remove` ended by kill -9 before each of its calls on files in turn.

use crate::common::removal::{Left, Removal};
use crate::common::run::{run, DONE};
use crate::common::say;
use crate::common::strace::{calls, tampered, traced, works, ON_FILES};
use std::os::unix::process::ExitStatusExt;

#[test]
fn killed_at_each_call_it_loses_nothing() {
    if !works() {
        say("kill -9 at each call: not run, strace is not there or may not trace");
        return;
    }
    let removal = Removal::new(3, 60);
    let folder = removal.lay();
    let log = folder.join("calls");
    run(&mut traced(&removal.take(&folder), ON_FILES, &log)).expect(DONE);
    let (mut old, mut new, mut done) = (0, [0; 4], 0);
    for call in calls(&log, "/trail/") {
        let folder = removal.lay();
        let log = folder.join("calls");
        let mut strace = tampered(
            &removal.take(&folder),
            &call.name,
            call.number,
            "signal=KILL",
            &log,
        );
        let status = strace.output().unwrap().status;
        let left = removal.check(&folder);
        removal.finish(&folder);
        match left {
            // What the allocator does differs a little from run to run.
            Left::DONE if status.code() == Some(DONE) => done += 1,
            _ if status.signal() != Some(9) => panic!("neither killed nor done: {call:?}"),
            Left::OLD => old += 1,
            Left { taken: 3, files } => new[files] += 1,
            _ => panic!("more than one commit: {left:?}"),
        }
    }
    let [none, one, two, three] = new;
    say(&format!(
        "kill -9 before each call on files: {} kills ({done} calls were not reached); {old} left the old state, {} the new one; \
         event files still there with the new state: 3 in {three}, 2 in {two}, 1 in {one}, none in {none}",
        old + none + one + two + three,
        none + one + two + three
    ));
    assert!(old > 10 && done < 5 && new.iter().all(|count| *count > 1));
}
