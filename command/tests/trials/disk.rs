//! A full disk: the state stays the old one, the recordings stay, exit 7; with room again the same call succeeds.

use crate::common::removal::{Left, Removal};
use crate::common::run::{program, run, DONE, INPUT_OUTPUT};
use crate::common::say;
use std::env;
use std::fs;
use std::path::{Path, PathBuf};
use std::process::Command;

/// Set for the run of this test inside a mount namespace: the folder where the small disk is mounted.
const SMALL_DISK: &str = "TRAIL_TRIAL_SMALL_DISK";
const SIGXFSZ: i32 = 25;

#[test]
fn a_file_size_limit_damages_nothing() {
    let removal = Removal::new(11, 150);
    let (mut limited, mut by_signal) = (0, 0);
    // In blocks of 512 bytes or of 1024, as the shell counts them.
    for blocks in 0.. {
        let folder = removal.lay();
        let take = removal.take(&folder);
        let mut limit = program("sh");
        limit.args(["-c", &format!("ulimit -f {blocks}; exec \"$0\" \"$@\"")]);
        limit
            .arg(take.get_program())
            .args(take.get_args())
            .current_dir(folder.path());
        let ended = run(&mut limit);
        let left = removal.check(&folder);
        if ended.signal().is_none() && ended.code() == DONE {
            assert_eq!(left, Left::DONE);
            break;
        }
        match ended.signal() {
            Some(signal) => assert_eq!(signal, SIGXFSZ),
            None => assert_eq!(ended.code(), INPUT_OUTPUT),
        }
        by_signal += usize::from(ended.signal().is_some());
        limited += 1;
        assert_eq!(left, Left::OLD);
        removal.finish(&folder);
    }
    say(&format!("file size limit: {limited} limits were too small, {by_signal} runs of these ended by the signal"));
    assert!(limited > 1);
}

#[test]
fn a_full_disk_damages_nothing() {
    match env::var_os(SMALL_DISK) {
        Some(disk) => on_small_disk(Path::new(&disk)),
        None => on_mounted_disk(),
    }
}

/// Runs this test again with a disk of 1 MB mounted, which only that run sees.
fn on_mounted_disk() {
    let disk = tempfile::tempdir().unwrap();
    let mount = "mount -t tmpfs -o size=1m none \"$TRAIL_TRIAL_SMALL_DISK\" && exec \"$0\" \"$@\"";
    for namespace in ["-m", "-rm"] {
        let may = Command::new("unshare")
            .args([namespace, "mount", "-t", "tmpfs", "none"])
            .arg(disk.path())
            .output();
        if !may.is_ok_and(|output| output.status.success()) {
            continue;
        }
        let mut again = Command::new("unshare");
        again
            .args([namespace, "sh", "-c", mount])
            .arg(env::current_exe().unwrap());
        again.args([
            "--exact",
            "disk::a_full_disk_damages_nothing",
            "--nocapture",
        ]);
        let output = again.env(SMALL_DISK, disk.path()).output().unwrap();
        let text = String::from_utf8_lossy(&output.stdout);
        assert!(
            output.status.success(),
            "{text}{}",
            String::from_utf8_lossy(&output.stderr)
        );
        assert!(text.contains("1 passed"), "{text}");
        let count = text
            .lines()
            .find(|line| line.starts_with("full disk:"))
            .unwrap();
        say(count);
        return;
    }
    say("full disk: not run, no disk can be mounted here");
}

/// The trail is on the small disk, the recordings are not. The disk has room for so many more pages, each number in turn.
fn on_small_disk(disk: &Path) {
    let removal = Removal::new(13, 1000);
    let mut full = 0;
    for pages in 0.. {
        let folder = removal.lay();
        let place = disk.join("trail");
        let trail = folder.trail();
        move_folder(&trail, &place);
        std::os::unix::fs::symlink(&place, &trail).unwrap();
        let filler = fill(disk, pages);
        let ended = run(&mut removal.take(&folder));
        if ended.code() == DONE {
            assert_eq!(removal.check(&folder), Left::DONE);
            break;
        }
        assert_eq!(ended.code(), INPUT_OUTPUT, "{ended:?}");
        assert_eq!(removal.check(&folder), Left::OLD);
        full += 1;
        fs::remove_file(filler).unwrap();
        removal.finish(&folder);
        fs::remove_dir_all(&place).unwrap();
    }
    println!("full disk: {full} runs had too little room");
    assert!(full > 1);
}

fn move_folder(from: &Path, to: &Path) {
    fs::create_dir(to).unwrap();
    for entry in fs::read_dir(from).unwrap() {
        let entry = entry.unwrap();
        fs::copy(entry.path(), to.join(entry.file_name())).unwrap();
    }
    fs::remove_dir_all(from).unwrap();
}

/// Fills the disk but for so many pages.
fn fill(disk: &Path, pages: usize) -> PathBuf {
    let filler = disk.join("filler");
    let mut length = 0;
    while fs::write(&filler, vec![0; length + 4096]).is_ok() {
        length += 4096;
    }
    fs::write(&filler, vec![0; length.saturating_sub(4096 * pages)]).unwrap();
    filler
}
