//! The order of the calls of `take --remove`, so that a loss of power loses nothing: the new state is on disk before it takes the
//! old one's place, and its place in the folder is on disk before a recording goes.

use crate::common::removal::Removal;
use crate::common::run::{run, DONE};
use crate::common::say;
use crate::common::strace::{traced, works};
use std::fs;

const CALLS: &str =
    "openat,write,pwrite64,writev,fsync,fdatasync,rename,renameat,renameat2,unlink,unlinkat,flock";

/// The lines of the calls that hold all of the words.
fn places(calls: &[String], words: &[&str]) -> Vec<usize> {
    let fits = |line: &String| words.iter().all(|word| line.contains(word));
    (0..calls.len())
        .filter(|place| fits(&calls[*place]))
        .collect()
}

#[test]
fn the_new_state_is_on_disk_before_a_recording_goes() {
    if !works() {
        say("order of the calls: not run, strace is not there or may not trace");
        return;
    }
    let removal = Removal::new(5, 500);
    let folder = removal.lay();
    let log = folder.join("calls");
    run(&mut traced(&removal.take(&folder), CALLS, &log)).expect(DONE);
    let text = fs::read_to_string(log).unwrap();
    let calls: Vec<String> = text
        .lines()
        .filter(|line| !line.contains(" = -1 "))
        .map(str::to_string)
        .collect();

    let trail = folder.trail();
    let new = format!("<{}>", trail.join("state.new").display());
    let lock = places(&calls, &["flock(", "LOCK_EX"])[0];
    let state = format!("{}\"", trail.join("state").display());
    let read_state = places(&calls, &["openat(", &state])[0];
    let last_write = *places(&calls, &["write", &new]).last().unwrap();
    let synced = *places(&calls, &["sync(", &new]).last().unwrap();
    let renamed = places(&calls, &["rename", "state.new\""]);
    let folder_synced = places(&calls, &["sync(", &format!("<{}>", trail.display())]);
    let removed = places(&calls, &["unlink", ".slt\""]);
    assert_eq!(
        (renamed.len(), removed.len()),
        (1, 3),
        "one commit and three removals"
    );
    let last_sync = *folder_synced.last().expect("the folder is synced");
    let order = [
        lock, read_state, last_write, synced, renamed[0], last_sync, removed[0],
    ];
    assert!(
        order.is_sorted_by(|one, next| one < next),
        "order of the calls: {order:?}\n{text}"
    );
}
