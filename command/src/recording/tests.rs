use super::sample::Sample;
use super::{Paths, Recording};
use crate::failure::Exit;
use std::ffi::OsStr;
use std::fs;
use std::os::unix::ffi::OsStrExt;
use std::path::{Path, PathBuf};

#[test]
fn names_and_start_lie_beside_the_file() {
    for (file, names, start) in [
        ("night.slt", "night.names", "night.start"),
        ("a/b.slt", "a/b.names", "a/b.start"),
        ("night", "night.names", "night.start"),
        ("night.slt.slt", "night.slt.names", "night.slt.start"),
        ("night.SLT", "night.SLT.names", "night.SLT.start"),
        ("a.slt/night", "a.slt/night.names", "a.slt/night.start"),
        (".slt", ".names", ".start"),
    ] {
        let paths = Paths::of(Path::new(file));
        assert_eq!(paths.all(), [file, names, start].map(Path::new));
    }
    let latin = |name: &'static [u8]| PathBuf::from(OsStr::from_bytes(name));
    let paths = Paths::of(&latin(b"caf\xe9.slt"));
    assert_eq!(paths.names, latin(b"caf\xe9.names"));
}

fn sample() -> Sample {
    Sample::new()
        .object("/a")
        .subject("/bin/x[1]")
        .read(0, 1, 5)
}

#[test]
fn a_digest_is_of_all_three_files() {
    let recording = sample().start("2026-11-17T19:20:45.12").recording("a.slt");
    let elsewhere = sample()
        .start("2026-11-17T19:20:45.12")
        .recording("b/c.slt");
    assert_eq!(recording.digest(), elsewhere.digest());
    let mut others = vec![recording.clone(); 6];
    others[0].file[8 + 24 + 8] = 6;
    others[1].names = Some(b"/b\n/bin/x[1]\n".to_vec());
    others[2].start = Some(b"2026-11-17T19:20:45.13\n".to_vec());
    others[3].names = None;
    others[4].start = None;
    others[5].start = Some(Vec::new());
    let mut digests: Vec<_> = others.iter().map(Recording::digest).collect();
    digests.push(recording.digest());
    digests.sort();
    digests.dedup();
    assert_eq!(digests.len(), 7);
}

#[test]
fn bytes_of_one_file_do_not_pass_for_those_of_the_next() {
    let parts = |file: &[u8], names: &[u8]| Recording {
        paths: Paths::of(Path::new("a.slt")),
        file: file.to_vec(),
        names: Some(names.to_vec()),
        start: None,
    };
    assert_ne!(parts(b"ab", b"c").digest(), parts(b"a", b"bc").digest());
}

#[test]
fn a_start_is_one_moment_in_full() {
    let start = |text: &[u8]| {
        let mut recording = sample().recording("a.slt");
        recording.start = Some(text.to_vec());
        recording.start().map(|moment| moment.unwrap().to_string())
    };
    assert_eq!(
        start(b"2026-11-17T19:20:45.12\n").unwrap(),
        "2026-11-17T19:20:45.12"
    );
    assert!(sample().recording("a.slt").start().unwrap().is_none());
    for wrong in [
        &b"2026-11-17T19:20:45.12"[..],
        b"2026-11-17T19:20:45.12\n\n",
        b"2026-11-17 19:20:45.12\n",
        b"2026-11-17\n",
        b"2100-01-01T00:00:00.00\n",
        b"1969-12-31T23:59:59.99\n",
        b"2026-02-30T00:00:00.00\n",
        b"yesterday\n",
        b"\xff\n",
        b"",
    ] {
        let failure = start(wrong).unwrap_err();
        assert_eq!(failure.exit, Exit::Refused);
        assert!(
            failure.message.starts_with("a.start: not a moment"),
            "{}",
            failure.message
        );
    }
}

#[test]
fn a_recording_is_read_from_its_files() {
    let dir = tempfile::tempdir().unwrap();
    let path = sample()
        .start("2026-11-17T19:20:45.12")
        .save(dir.path(), "a.slt");
    let read = Recording::read(&path).unwrap();
    let same = sample().start("2026-11-17T19:20:45.12").recording(&path);
    assert_eq!(
        (&read.file, &read.names, &read.start),
        (&same.file, &same.names, &same.start)
    );
    assert_eq!(read.records(), 3);
    fs::remove_file(dir.path().join("a.names")).unwrap();
    fs::remove_file(dir.path().join("a.start")).unwrap();
    let bare = Recording::read(&path).unwrap();
    assert_eq!((bare.names, bare.start), (None, None));
}

#[test]
fn what_cannot_be_read_is_said() {
    let dir = tempfile::tempdir().unwrap();
    let missing = Recording::read(&dir.path().join("none.slt")).unwrap_err();
    assert_eq!(missing.exit, Exit::InputOutput);
    let path = sample().save(dir.path(), "a.slt");
    fs::remove_file(dir.path().join("a.names")).unwrap();
    fs::create_dir(dir.path().join("a.names")).unwrap();
    let names = Recording::read(&path).unwrap_err();
    assert_eq!(names.exit, Exit::InputOutput);
    assert!(names.message.contains("a.names"), "{}", names.message);
}

#[test]
fn no_more_is_read_than_a_trail_can_take_in() {
    let zeros = Recording::read(Path::new("/dev/zero")).unwrap();
    assert_eq!(zeros.records(), 1_000_000 + 2 * 4096 + 1);
}
