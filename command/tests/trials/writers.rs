//! Two writers: the second gives up and changes nothing; readers go on.

use crate::common::folder::Folder;
use crate::common::random::Random;
use crate::common::recording::{worked, Recording};
use crate::common::recordings::moment;
use crate::common::run::{ANOTHER_WRITER, DONE};
use crate::common::say;
use std::fs::File;
use std::process::{Child, Stdio};
use std::thread::sleep;
use std::time::Duration;

fn later(minutes: u32, report: &str) -> Recording {
    let mut recording = Recording::at(&moment(minutes * 6000));
    let stager = recording.subject("/bin/stager[7]");
    let report = recording.object(report);
    recording.write(stager, report, 1);
    recording
}

#[test]
fn a_second_writer_gives_up_and_readers_go_on() {
    let folder = Folder::with(&worked());
    folder.put(&later(1, "/data/second"), "second");
    let before = folder.contents();
    let lock = File::options()
        .write(true)
        .open(folder.trail().join("lock"))
        .unwrap();
    lock.try_lock().unwrap();
    for writer in [
        &["take", "second.slt"][..],
        &["take", "--remove", "second.slt"],
        &["sign", "/data/report"],
    ] {
        folder.run(writer).expect(ANOTHER_WRITER);
        assert_eq!(
            folder.json(writer).expect(ANOTHER_WRITER).error()["exit"],
            ANOTHER_WRITER
        );
    }
    for reader in [
        &["check"][..],
        &["check", "--deep"],
        &["stats"],
        &["list"],
        &["back", "report"],
        &["forward", "study"],
    ] {
        folder.run(reader).expect(DONE);
    }
    assert!(folder.contents() == before, "something was written");
    folder.run(["log", "kept.slt"]).expect(DONE);
    lock.unlock().unwrap();
    folder.run(["take", "second.slt"]).expect(DONE);
}

const PAIR: [&str; 2] = ["left", "right"];

/// Two at once, the second a little after the first; their exit codes. Both recordings start at the same moment, so that either may
/// be the first.
fn pair(folder: &Folder, after: Duration) -> [i32; 2] {
    for base in PAIR {
        folder.put(&later(1, &format!("/data/{base}")), base);
    }
    let start = |base: &str| -> Child {
        let mut take = folder.command(["take", "--remove", &format!("{base}.slt")]);
        take.stdout(Stdio::null()).stderr(Stdio::null());
        let child = take.spawn().unwrap();
        sleep(after);
        child
    };
    let mut children = PAIR.map(start);
    let wait = |child: &mut Child| child.wait().unwrap().code().unwrap();
    children.each_mut().map(wait)
}

#[test]
fn of_two_at_once_each_is_done_or_gives_up() {
    let mut random = Random::new(41);
    let (mut both, mut one) = (0, 0);
    for _ in 0..60 {
        let folder = Folder::with(&worked());
        let codes = pair(&folder, Duration::from_micros(random.below(30_000) as u64));
        folder.run(["check"]).expect(DONE);
        let names: Vec<Vec<u8>> = folder.list().into_values().flatten().collect();
        for (base, code) in PAIR.iter().zip(codes) {
            assert!([DONE, ANOTHER_WRITER].contains(&code), "{codes:?}");
            let is_in = names.contains(&format!("/data/{base}").into_bytes());
            assert_eq!(is_in, code == DONE);
            assert_eq!(folder.join(&format!("{base}.slt")).exists(), code != DONE);
        }
        match codes {
            [DONE, DONE] => both += 1,
            [DONE, _] | [_, DONE] => one += 1,
            _ => panic!("both gave up"),
        }
    }
    say(&format!(
        "two writers at once: both were done in {both} pairs, one gave up in {one}"
    ));
}
