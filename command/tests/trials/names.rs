//! Names with spaces, quotes, newlines, backslashes, semicolons, bytes that are not UTF-8: found, printed safely, given back unchanged.

use crate::common::folder::Folder;
use crate::common::recording::{escaped, os, Recording};
use crate::common::recordings::{moment, START};
use crate::common::run::{DONE, REFUSED};
use std::ffi::OsStr;
use std::fs;

/// Paths as they are on the disk.
fn paths() -> Vec<Vec<u8>> {
    let long = [b"/data/".as_slice(), &b"long ".repeat(800)].concat();
    vec![
        b"/data/a b".to_vec(),
        b"/data/ leading and trailing ".to_vec(),
        b"/data/single'quote".to_vec(),
        b"/data/double\"quote".to_vec(),
        b"/data/new\nline".to_vec(),
        b"/data/\n".to_vec(),
        b"/data/back\\slash".to_vec(),
        b"/data/ends in\\".to_vec(),
        b"/data/\\n no newline".to_vec(),
        b"/data/semi;colon".to_vec(),
        b"/data/like a generation;2".to_vec(),
        b"/data/like a generation\\;2".to_vec(),
        b"/data/#7".to_vec(),
        b"/data/-t".to_vec(),
        b"/data/*?[a]".to_vec(),
        b"/data/tab\tbell\x07escape\x1b[31mred".to_vec(),
        b"/data/carriage\rreturn".to_vec(),
        b"/data/delete\x7f".to_vec(),
        "/data/Schläfer ☾".as_bytes().to_vec(),
        "/data/next line\u{85}".as_bytes().to_vec(),
        b"/data/caf\xe9".to_vec(),
        b"/data/\xff\xfe\x80".to_vec(),
        b"/data/\xed\xa0\x80".to_vec(),
        long,
    ]
}

fn recording(paths: &[Vec<u8>]) -> Recording {
    let mut recording = Recording::at(START);
    let program = recording.subject("/bin/stager[7]");
    for (time, path) in (1..).zip(paths) {
        let object = recording.object(escaped(path));
        recording.write(program, object, time);
    }
    recording
}

#[test]
fn names_are_given_back_unchanged_in_json() {
    let paths = paths();
    let folder = Folder::with(&recording(&paths));
    let listed: Vec<Option<Vec<u8>>> = folder.list().into_values().skip(1).collect();
    let names: Vec<Option<Vec<u8>>> = paths.iter().map(|path| Some(escaped(path))).collect();
    assert_eq!(listed, names);
}

/// A name finds its entity, and so does a path as it is on the disk, unless it is another's name.
#[test]
fn names_and_paths_find_their_entities() {
    let paths = paths();
    let names: Vec<Vec<u8>> = paths.iter().map(|path| escaped(path)).collect();
    let folder = Folder::with(&recording(&paths));
    let number = |name: &[u8]| {
        names
            .iter()
            .position(|other| other == name)
            .map(|place| place as u32 + 1)
    };
    for asked in paths.iter().chain(&names) {
        let meant = number(asked).or(number(&escaped(asked))).unwrap();
        let run = folder.json([OsStr::new("back"), os(asked)]).expect(DONE);
        let behind: Vec<u32> = crate::common::answers::marked(&run.json())
            .into_keys()
            .collect();
        assert_eq!(behind, [0, meant], "{:?}", String::from_utf8_lossy(asked));
        let end = &asked["/data/".len()..];
        if !end.starts_with(b"#") {
            folder
                .run([OsStr::new("back"), OsStr::new("--"), os(end)])
                .expect(DONE);
        }
    }
}

#[test]
fn names_are_printed_safely() {
    let folder = Folder::with(&recording(&paths()));
    for call in [
        &["list"][..],
        &["back", "stager"],
        &["forward", "stager", "--at", "0"],
    ] {
        folder.run(call).expect(DONE).expect_plain();
    }
    let text = folder.run(["list"]).expect(DONE).out_text();
    for shown in [
        "/data/a b",
        "/data/double\"quote",
        "/data/new\\nline",
        "/data/tab\\x09bell\\x07escape\\x1b[31mred",
        "/data/caf\\xe9",
        "/data/\\xff\\xfe\\x80",
        "/data/Schläfer ☾",
    ] {
        assert!(text.contains(shown), "{shown} is not in {text}");
    }
}

#[test]
fn messages_are_printed_safely() {
    let folder = Folder::with(&recording(&paths()));
    for asked in [
        &b"no\x1b[31m such"[..],
        b"no\xff such",
        b"no\nsuch",
        b"a",
        b"escape",
    ] {
        folder.run([OsStr::new("back"), os(asked)]).expect_plain();
    }
}

/// The kept log has the names, and a trail that takes it in has the same.
#[test]
fn the_log_carries_the_names() {
    let mut recording = recording(&paths());
    recording.object("");
    recording.object("/data/a b;1");
    recording.object("/data/a b;2");
    recording.subject("");
    let folder = Folder::with(&recording);
    folder.run(["log", "kept.slt"]).expect(DONE);
    let mut lines = recording.lines.clone();
    let count = lines.len();
    lines[count - 3] = b"/data/a b;2".to_vec();
    lines[count - 2] = b"/data/a b;3".to_vec();
    let text: Vec<u8> = lines
        .iter()
        .flat_map(|line| [line, &b"\n"[..]].concat())
        .collect();
    assert_eq!(fs::read(folder.join("kept.names")).unwrap(), text);
    assert_eq!(
        fs::read(folder.join("kept.start")).unwrap(),
        format!("{START}\n").into_bytes()
    );
    let again = Folder::new();
    again
        .run(["take".into(), folder.join("kept.slt")])
        .expect(DONE);
    assert_eq!(again.list(), folder.list());
    again.run(["log", "again.slt"]).expect(DONE);
    for file in ["slt", "names", "start"] {
        let kept = fs::read(folder.join(&format!("kept.{file}"))).unwrap();
        assert!(
            kept == fs::read(again.join(&format!("again.{file}"))).unwrap(),
            "{file}"
        );
    }
}

#[test]
fn unnamed_entities_are_never_joined_and_go_by_number() {
    let mut recording = Recording::at(START);
    let object = recording.object("");
    let subject = recording.subject("");
    recording.read(object, subject, 1);
    let folder = Folder::with(&recording);
    let mut second = recording.clone();
    second.start = Some(moment(100));
    folder.take(&second, "second").expect(DONE);
    assert_eq!(
        folder.list().into_values().collect::<Vec<_>>(),
        vec![None; 4]
    );
    let run = folder.run(["back", "#3"]).expect(DONE);
    run.says(&["#2", "#3"]);
    assert!(!run.out_text().contains("#1"));
    assert_eq!(
        folder.back(3, "200").into_keys().collect::<Vec<_>>(),
        [2, 3]
    );
}

#[test]
fn names_that_only_look_like_a_generation() {
    let lines: [&[u8]; 9] = [
        b"a;0",
        b"a;01",
        b"a;",
        b"a;x",
        b"a\\;1",
        b"a\\\\;1",
        b"a;1;",
        b";1",
        b"b;99999999999999999999999",
    ];
    let mut recording = Recording::at(START);
    for line in lines {
        recording.object(line);
    }
    let folder = Folder::with(&recording);
    let text = |name: &str| Some(name.as_bytes().to_vec());
    let mut names = ["a;0", "a;01", "a;", "a;x", "a\\;1", "a\\\\", "a;1;"]
        .map(text)
        .to_vec();
    names.extend([None, text("b")]);
    assert_eq!(folder.list().into_values().collect::<Vec<_>>(), names);
    folder.run(["check", "--deep"]).expect(DONE);
}

/// The base of such a line would be a name that another base's generation may have.
#[test]
fn a_line_with_two_numbers_is_refused() {
    for line in ["c;1;1", "c;2;1", ";1;1"] {
        let folder = Folder::new();
        let mut recording = Recording::at(START);
        recording.object("c");
        recording.object(line);
        let path = folder.put(&recording, "bad");
        let before = folder.contents();
        folder
            .run(["take".into(), path])
            .expect(REFUSED)
            .says(&["line 2", line]);
        assert!(folder.contents() == before);
    }
}
