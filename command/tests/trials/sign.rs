//! Signed files: no event goes into one any more; a file made anew under its name is another; the log carries the signature.

use crate::common::folder::Folder;
use crate::common::recording::{offset, worked, Files, Recording};
use crate::common::recordings::moment;
use crate::common::run::{DONE, NOT_FOUND, REFUSED};

const SIGNED: u32 = 2;

/// The stager writes the report, under this line.
fn again(start: &str, line: &str) -> Recording {
    let mut recording = Recording::at(start);
    let stager = recording.subject("/bin/stager[7]");
    let report = recording.object(line);
    recording.write(stager, report, 1);
    recording
}

fn signed() -> Folder {
    let folder = Folder::with(&worked());
    folder.run(["sign", "report"]).expect(DONE);
    assert_eq!(folder.state_file().entities[2][0], SIGNED);
    folder
}

#[test]
fn a_signed_file_takes_no_more_events() {
    let folder = signed();
    let before = folder.state();
    let more = again(&moment(100), "/data/report");
    folder.put(&more, "more");
    let error = folder
        .json(["take", "--remove", "more.slt"])
        .expect(REFUSED)
        .error();
    assert_eq!(
        (&error["refusal"], &error["record"], &error["byte"]),
        (&17.into(), &3.into(), &offset(3).into())
    );
    folder
        .run(["take", "more.slt"])
        .expect(REFUSED)
        .says(&["signed"]);
    assert!(folder.state() == before);
    assert_eq!(Files::get(&folder.join("more.slt")), Some(more.files()));
    folder.run(["check", "--deep"]).expect(DONE);
}

#[test]
fn traces_and_reads_go_on() {
    let folder = signed();
    assert_eq!(folder.names_behind("report").len(), 4);
    let mut reader = Recording::at(&moment(100));
    let report = reader.object("/data/report");
    let mail = reader.subject("/bin/mail[9]");
    reader.read(report, mail, 1);
    folder.take(&reader, "reader").expect(DONE);
    assert_eq!(folder.names_behind("mail").len(), 5);
    assert_eq!(folder.state_file().counts[0], 5);
}

#[test]
fn made_anew_it_is_another_file() {
    let folder = signed();
    folder
        .take(&again(&moment(100), "/data/report;1"), "anew")
        .expect(DONE);
    let state = folder.state_file();
    assert_eq!((state.entities[2][0], state.entities[4][0]), (SIGNED, 0));
    assert_eq!(folder.list()[&4], Some(b"/data/report;2".to_vec()));
    // Now the latest is meant, which is not signed.
    folder
        .take(&again(&moment(200), "/data/report"), "more")
        .expect(DONE);
    assert_eq!(folder.state_file().counts[0], 5);
    folder.run(["sign", "report"]).expect(DONE);
    assert_eq!(folder.state_file().entities[4][0], SIGNED);
}

#[test]
fn the_log_carries_the_signature() {
    let folder = signed();
    folder.run(["log", "kept.slt"]).expect(DONE);
    let kept = std::fs::read(folder.join("kept.slt")).unwrap();
    assert_eq!(kept[3], 2, "a file of version 2");
    assert_eq!(kept.len(), offset(4 + 4 + 1 + 1));
    let fresh = Folder::new();
    fresh
        .run(["take".into(), folder.join("kept.slt")])
        .expect(DONE);
    assert_eq!(fresh.state_file().entities[2][0], SIGNED);
    fresh.put(&again(&moment(100), "/data/report"), "more");
    assert_eq!(
        fresh.json(["take", "more.slt"]).expect(REFUSED).error()["refusal"],
        17
    );
}

/// Signed twice, a program, one that is not there: nothing is signed, also of the others given with it.
#[test]
fn what_cannot_be_signed() {
    let folder = signed();
    let before = folder.state();
    let error = folder
        .json(["sign", "study", "report"])
        .expect(REFUSED)
        .error();
    assert_eq!(error["refusal"], 17, "{error}");
    let error = folder
        .json(["sign", "study", "stager"])
        .expect(REFUSED)
        .error();
    assert_eq!(error["refusal"], 8, "{error}");
    folder.run(["sign", "study", "nothing"]).expect(NOT_FOUND);
    assert!(folder.state() == before);
    folder.run(["sign", "study", "montage"]).expect(DONE);
    let sorts: Vec<u32> = folder
        .state_file()
        .entities
        .iter()
        .map(|row| row[0])
        .collect();
    assert_eq!(sorts, [SIGNED, 1, SIGNED, SIGNED]);
}

#[test]
fn a_signature_in_a_recording() {
    let mut recording = worked();
    recording.sign(2);
    let folder = Folder::with(&recording);
    assert_eq!(folder.state_file().entities[2][0], SIGNED);
    folder.put(&again(&moment(100), "/data/report"), "more");
    folder.run(["take", "more.slt"]).expect(REFUSED);
}
