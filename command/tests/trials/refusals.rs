//! Files refused for what they hold: the record, its byte, the refusal's number and words are told, and nothing changes.

use crate::common::folder::Folder;
use crate::common::recording::{offset, worked, Files, Recording};
use crate::common::recordings::moment;
use crate::common::run::REFUSED;
use crate::common::say;

/// What is wrong, the edit of the event file, the refusal, the record, a word of the reason.
pub type Case = (&'static str, fn(&mut Vec<u8>), u32, usize, &'static str);

#[rustfmt::skip]
pub const CASES: &[Case] = &[
    ("an empty file", |b| b.clear(), 1, 0, "event file"),
    ("seven bytes", |b| b.truncate(7), 1, 0, "event file"),
    ("another mark", |b| b[0] = b's', 1, 0, "event file"),
    ("a header byte not 0", |b| b[7] = 1, 1, 0, "event file"),
    ("version 0", |b| b[3] = 0, 2, 0, "version"),
    ("version 3", |b| b[3] = 3, 2, 0, "version"),
    ("version 257", |b| b[4] = 1, 2, 0, "version"),
    ("one byte left", |b| b.push(1), 3, 5, "inside a record"),
    ("eleven bytes left", |b| b.extend(&event(1, 0, 2, 6)[..11]), 3, 5, "inside a record"),
    ("kind 6 in version 1", |b| b.extend(event(6, 0, 0, 0)), 4, 5, "field"),
    ("kind 7 in version 2", |b| version_2(b, &[event(7, 0, 0, 0)]), 4, 5, "field"),
    ("sort 2", |b| b.extend(declaration(2, 3)), 4, 5, "field"),
    ("a field not 0", |b| b.extend([1, 0, 0, 0, 2, 0, 1, 0, 6, 0, 0, 0]), 4, 5, "field"),
    ("a source not declared", |b| b.extend(event(1, 9, 2, 6)), 5, 5, "not declared"),
    ("a target not declared", |b| b.extend(event(1, 0, 3, 6)), 5, 5, "not declared"),
    ("a number left out", |b| b.extend(declaration(0, 4)), 6, 5, "next"),
    ("a number twice", |b| b.extend(declaration(0, 2)), 6, 5, "next"),
    ("source is target", |b| b.extend(event(1, 0, 0, 6)), 7, 5, "source equals target"),
    ("a read by an object", |b| b.extend(event(1, 0, 1, 6)), 8, 5, "sort"),
    ("a write by an object", |b| b.extend(event(2, 0, 2, 6)), 8, 5, "sort"),
    ("a signed subject", |b| version_2(b, &[event(6, 2, 0, 0)]), 8, 5, "sort"),
    ("time 0", |b| b[offset(4) + 8] = 0, 9, 4, "time"),
    ("an earlier time", |b| b.extend(event(1, 1, 2, 4)), 9, 5, "earlier"),
    ("into a signed object", |b| version_2(b, &[event(6, 0, 0, 0), event(2, 2, 0, 6)]), 17, 6, "signed"),
    ("signed twice", |b| version_2(b, &[event(6, 1, 0, 0), event(6, 1, 0, 0)]), 17, 6, "signed"),
];

fn event(kind: u8, source: u8, target: u8, time: u8) -> [u8; 12] {
    [kind, 0, source, 0, target, 0, 0, 0, time, 0, 0, 0]
}

fn declaration(sort: u8, number: u8) -> [u8; 12] {
    [0, sort, number, 0, 0, 0, 0, 0, 0, 0, 0, 0]
}

fn version_2(bytes: &mut Vec<u8>, records: &[[u8; 12]]) {
    bytes[3] = 2;
    bytes.extend(records.concat());
}

/// Two objects, a program, one read: records 1 to 4.
pub fn base() -> Recording {
    let mut recording = Recording::at(&moment(100));
    let one = recording.object("/data/one");
    recording.object("/data/two");
    let program = recording.subject("/bin/program[1]");
    recording.read(one, program, 5);
    recording
}

pub fn edited(case: &Case) -> Files {
    let mut files = base().files();
    case.1(&mut files.events);
    files
}

#[test]
fn a_refused_file_is_told_and_changes_nothing() {
    for case in CASES {
        let files = edited(case);
        expect_refused(&Folder::with(&worked()), &files, case);
        // Without names into a fresh trail, as its numbers are the trail's own.
        let unnamed = Files {
            names: None,
            ..files
        };
        expect_refused(&Folder::new(), &unnamed, case);
    }
    say(&format!(
        "refusals because of the file: {} files, each with names and without",
        CASES.len()
    ));
}

fn expect_refused(folder: &Folder, files: &Files, case: &Case) {
    let (what, _, number, record, word) = *case;
    folder.put_files(files, "bad");
    let before = folder.contents();
    let byte = if record == 0 { 0 } else { offset(record) };
    let run = folder.run(["take", "bad.slt"]);
    assert_eq!(run.code(), REFUSED, "{what}: {run:?}");
    run.says(&["bad.slt", word, &format!("{number}: ")]);
    if record > 0 {
        run.says(&[&format!("record {record}"), &format!("byte {byte}")]);
    }
    assert!(
        run.err_text().starts_with("trail: "),
        "{what}: {}",
        run.err_text()
    );
    let error = folder.json(["take", "bad.slt"]).expect(REFUSED).error();
    assert_eq!(error["refusal"], number, "{what}: {error}");
    assert_eq!(error["record"], record, "{what}: {error}");
    assert_eq!(error["byte"], byte, "{what}: {error}");
    folder.run(["take", "--remove", "bad.slt"]).expect(REFUSED);
    assert!(folder.contents() == before, "{what}: something changed");
}
