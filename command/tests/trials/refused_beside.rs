//! A refused file beside others, and one that is refused for what stands beside it or in the trail.

use crate::common::folder::Folder;
use crate::common::recording::{header, offset, worked, Files, Recording};
use crate::common::recordings::{moment, START};
use crate::common::run::{DONE, REFUSED};
use crate::refusals::{base, edited, CASES};
use serde_json::json;

/// A good one, a bad one, a third: the first is committed and goes, the third is not tried.
#[test]
fn the_files_before_a_refused_one_are_committed() {
    for case in CASES {
        let (what, _, number, record, _) = *case;
        let folder = Folder::new();
        let mut third = Recording::at(&moment(200));
        third.object("/data/third");
        folder.put(&worked(), "first");
        folder.put_files(&edited(case), "bad");
        folder.put(&third, "third");
        let run = folder.json(["take", "--remove", "first.slt", "bad.slt", "third.slt"]);
        assert_eq!(run.code(), REFUSED, "{what}");
        let error = run.error();
        assert_eq!(
            (&error["refusal"], &error["record"]),
            (&number.into(), &record.into()),
            "{what}"
        );
        assert_eq!(
            run.json()["committed"],
            json!([{ "file": "first.slt" }]),
            "{what}"
        );
        let state = folder.state_file();
        assert!(
            state.taken.len() == 1 && state.has_taken(&worked().files()),
            "{what}"
        );
        assert!(
            !folder.join("first.slt").exists(),
            "the first is in the trail, so it goes"
        );
        assert_eq!(Files::get(&folder.join("bad.slt")), Some(edited(case)));
        assert_eq!(Files::get(&folder.join("third.slt")), Some(third.files()));
    }
}

#[test]
fn people_are_told_which_files_were_committed() {
    let folder = Folder::new();
    folder.put(&worked(), "first");
    folder.put_files(&edited(&CASES[0]), "bad");
    folder.put(&base(), "third");
    let run = folder
        .run(["take", "first.slt", "bad.slt", "third.slt"])
        .expect(REFUSED);
    run.says(&[
        "first.slt: 7 events",
        "bad.slt: refused",
        "third.slt: not tried",
    ]);
}

/// The record and the byte are those of the file itself, though it is refused only in the trail.
#[test]
fn a_refusal_in_the_trail_is_in_the_numbers_of_the_file() {
    let folder = Folder::with(&worked());
    let mut recording = Recording::at(START);
    let study = recording.object("/data/study");
    let program = recording.subject("/bin/late[1]");
    recording.object("/data/new");
    recording.object("/data/newer");
    // The fifth record is earlier than the trail's last event.
    recording.read(study, program, 6);
    recording.read(study, program, 8);
    folder.put(&recording, "late");
    let before = folder.state();
    let error = folder.json(["take", "late.slt"]).expect(REFUSED).error();
    let place = (&error["refusal"], &error["record"], &error["byte"]);
    assert_eq!(place, (&9.into(), &5.into(), &offset(5).into()));
    folder
        .run(["take", "late.slt"])
        .expect(REFUSED)
        .says(&["older than the trail"]);
    assert!(folder.state() == before);
}

/// With these files the base is refused, and nothing changes.
fn expect_refused(what: &str, files: &Files) {
    let folder = Folder::with(&worked());
    folder.put_files(files, "bad");
    let before = folder.contents();
    let run = folder.json(["take", "bad.slt"]);
    assert_eq!(run.code(), REFUSED, "{what}: {run:?}");
    run.error();
    assert!(folder.contents() == before, "{what}");
}

#[test]
fn names_that_do_not_fit_the_file_are_refused() {
    let names: [(&str, &[u8]); 5] = [
        ("none", b""),
        ("one too few", b"a\nb\n"),
        ("one too many", b"a\nb\nc\nd\n"),
        ("the last without its end", b"a\nb\nc"),
        ("bytes after the last", b"a\nb\nc\nd"),
    ];
    for (what, text) in names {
        let mut files = base().files();
        files.names = Some(text.to_vec());
        expect_refused(what, &files);
    }
}

#[test]
fn starts_that_are_no_moment_are_refused() {
    for start in [
        "",
        "\n",
        "soon\n",
        "2026-11-17\x00\n",
        "2026-13-17T19:20:45.12\n",
        "2026-02-29T19:20:45.12\n",
        "2026-11-17T24:20:45.12\n",
        "2026-11-17T19:60:45.12\n",
        "2026-11-17T19:20:60.12\n",
        "1969-12-31T23:59:59.99\n",
        "2100-01-01T00:00:00.00\n",
        "2026-11-17T19:20:45.12Z\n",
        "2026-11-17T19:20:45.12\n2026-11-17T19:20:45.12\n",
        "+026-11-17T19:20:45.12\n",
    ] {
        let mut files = base().files();
        files.start = Some(start.as_bytes().to_vec());
        expect_refused(start, &files);
    }
}

#[test]
fn a_header_alone_is_taken() {
    let folder = Folder::new();
    for (version, base) in [(1, "one"), (2, "two")] {
        let files = Files {
            events: header(version),
            names: Some(Vec::new()),
            start: None,
        };
        folder.take_files(&files, base).expect(DONE);
        assert!(folder.state_file().has_taken(&files));
    }
}
