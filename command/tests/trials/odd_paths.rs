//! Recordings and trails whose own paths have spaces, quotes, newlines, bytes that are not UTF-8.

use crate::common::answers::from_hex;
use crate::common::folder::Folder;
use crate::common::recording::{is_gone, os, worked, Recording};
use crate::common::recordings::moment;
use crate::common::run::{run, trail, DONE, INPUT_OUTPUT, REFUSED};
use std::fs;
use std::path::Path;

const NAMES: [&[u8]; 7] = [
    b"a b",
    b"it's \"quoted\"",
    b"new\nline",
    b"caf\xe9",
    b"-dash",
    b"esc\x1b[31m",
    b"dot.slt",
];

#[test]
fn recordings_at_odd_paths() {
    let folder = Folder::new();
    for (number, name) in NAMES.iter().enumerate() {
        let mut recording = Recording::at(&moment(100 * number as u32));
        recording.object("/data/study");
        fs::create_dir(folder.path().join(os(name))).unwrap();
        recording.put(&folder.path().join(os(name)), "night");
        let path = Path::new(os(name)).join("night.slt");
        let mut take = folder.command(["take", "--remove", "--"]);
        let ended = run(take.arg(&path)).expect(DONE);
        ended.expect_plain();
        assert!(is_gone(&folder.path().join(path)));
    }
    assert_eq!(folder.state_file().taken.len(), NAMES.len());
}

#[test]
fn refused_files_at_odd_paths() {
    let folder = Folder::new();
    for name in NAMES {
        let path = folder.path().join(os(name));
        fs::write(&path, "no event file").unwrap();
        let ended = run(folder.command(["take"]).arg(&path)).expect(REFUSED);
        ended.expect_plain();
        let ended = run(folder.command(["take", "--json"]).arg(&path)).expect(REFUSED);
        let error = ended.error();
        let told = match error.get("file_hex") {
            Some(hex) => from_hex(hex.as_str().unwrap()),
            None => error["file"].as_str().unwrap().as_bytes().to_vec(),
        };
        assert_eq!(os(&told), path.as_os_str(), "it comes back unchanged");
    }
}

#[test]
fn trails_at_odd_paths() {
    let folder = Folder::empty();
    for name in NAMES {
        let place = folder.path().join(os(name));
        run(trail(&place).arg("init")).expect(DONE);
        let path = folder.put(&worked(), "night");
        run(trail(&place).arg("take").arg(path)).expect(DONE);
        run(trail(&place).arg("check").arg("--deep")).expect(DONE);
        run(trail(&place).arg("check").arg("--json"))
            .expect(DONE)
            .json();
    }
}

/// A folder, a missing file, a file inside a file: told, and nothing changes.
#[test]
fn what_is_no_file() {
    let folder = Folder::with(&worked());
    fs::create_dir(folder.join("folder.slt")).unwrap();
    let before = folder.contents();
    for path in ["folder.slt", "missing.slt", "first.slt/inner.slt"] {
        folder.run(["take", "--remove", path]).expect(INPUT_OUTPUT);
    }
    let mut recording = Recording::at(&moment(100));
    recording.object("/data/study");
    let path = folder.put(&recording, "night");
    for file in ["names", "start"] {
        let beside = path.with_extension(file);
        let bytes = fs::read(&beside).unwrap();
        fs::remove_file(&beside).unwrap();
        fs::create_dir(&beside).unwrap();
        folder
            .run(["take", "night.slt"])
            .expect(INPUT_OUTPUT)
            .says(&["night"]);
        fs::remove_dir(&beside).unwrap();
        fs::write(&beside, bytes).unwrap();
    }
    assert!(folder.state() == before[&folder.state_path()]);
}
