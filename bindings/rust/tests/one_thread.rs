//! A trail and its clones have one thread, which ends with the last of them. In a program of its own, since it counts threads.

use std::fs;
use std::thread;
use std::time::Duration;
use trail::Trail;

/// The threads of this process that are a trail's.
fn trail_threads() -> usize {
    let tasks = fs::read_dir("/proc/self/task").unwrap();
    let names = tasks.filter_map(|task| fs::read_to_string(task.ok()?.path().join("comm")).ok());
    names.filter(|name| name.trim() == "trail").count()
}

/// A thread that has ended may be listed for a moment.
fn assert_threads(expected: usize) {
    for _ in 0..100 {
        if trail_threads() == expected {
            return;
        }
        thread::sleep(Duration::from_millis(20));
    }
    assert_eq!(trail_threads(), expected);
}

#[test]
fn one_thread_for_a_trail_and_its_clones() {
    assert_threads(0);
    let trail = Trail::new().unwrap();
    let clones: Vec<Trail> = (0..10).map(|_| trail.clone()).collect();
    clones
        .iter()
        .for_each(|clone| assert_eq!(clone.kept_log().len(), 8));
    assert_threads(1);
    let another = Trail::from_rows(trail.counts(), [], [], []).unwrap();
    assert_threads(2);
    drop(trail);
    assert_eq!(clones[9].kept_log().len(), 8);
    assert_threads(2);
    drop(clones);
    assert_threads(1);
    drop(another);
    assert_threads(0);
}
