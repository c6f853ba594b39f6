//! Files made anew under one name: the latest is meant, an earlier one can be asked for, and old contents do not stand behind the new.

use crate::common::answers::texts;
use crate::common::folder::Folder;
use crate::common::recording::Recording;
use crate::common::recordings::{moment, START};
use crate::common::run::{DONE, NOT_FOUND};

/// A program of its own reads a study and writes the report.
fn night(start: &str, number: u32, report: &str) -> Recording {
    let mut recording = Recording::at(start);
    let study = recording.object(format!("/data/study {number}"));
    let stager = recording.subject(format!("/bin/stager[{number}];1"));
    let report = recording.object(report);
    recording.read(study, stager, 10);
    recording.write(stager, report, 20);
    recording
}

/// The report of the first night, overwritten in the second.
fn two_nights() -> Folder {
    let folder = Folder::with(&night(START, 1, "/data/report;1"));
    folder
        .take(&night(&moment(1000), 2, "/data/report;1"), "second")
        .expect(DONE);
    folder
}

#[test]
fn old_contents_do_not_stand_behind_the_new_report() {
    let folder = two_nights();
    assert_eq!(
        folder.names_behind("report"),
        ["/bin/stager[2]", "/data/report;2", "/data/study 2"]
    );
    assert_eq!(
        folder.names_behind("/data/report;2"),
        ["/bin/stager[2]", "/data/report;2", "/data/study 2"]
    );
    assert_eq!(
        folder.names_reached("study 1", "0"),
        ["/bin/stager[1]", "/data/report", "/data/study 1"]
    );
}

#[test]
fn an_earlier_one_by_its_number_or_by_the_time() {
    let folder = two_nights();
    let first = ["/bin/stager[1]", "/data/report", "/data/study 1"];
    assert_eq!(folder.names_behind("/data/report;1"), first);
    assert_eq!(folder.names_behind("report;1"), first);
    for at in [20, 999, 1019] {
        let run = folder
            .json(["back", "report", "--at", &at.to_string()])
            .expect(DONE);
        assert_eq!(texts(&run.json()), first, "at {at}");
    }
    let run = folder.json(["back", "report", "--at", "1020"]).expect(DONE);
    assert!(texts(&run.json()).contains(&"/data/study 2".to_string()));
    folder.run(["back", "/data/report;3"]).expect(NOT_FOUND);
    folder.run(["back", "report"]).expect(DONE).says(&["2"]);
}

/// Added to, not made anew: it is the same file, and both studies stand behind it.
#[test]
fn a_file_that_stood_before_is_the_same_one() {
    let folder = Folder::with(&night(START, 1, "/data/report;1"));
    folder
        .take(&night(&moment(1000), 2, "/data/report"), "second")
        .expect(DONE);
    assert_eq!(folder.names_behind("report").len(), 5);
    assert_eq!(folder.state_file().counts[0], 5);
}

/// Several in one recording: the one that stood before, and two made one after the other.
#[test]
fn generations_inside_one_recording() {
    let folder = Folder::with(&night(START, 1, "/data/report;1"));
    let mut recording = Recording::at(&moment(1000));
    let study = recording.object("/data/study 2");
    let stager = recording.subject("/bin/stager[2];1");
    let old = recording.object("/data/report");
    let made = recording.object("/data/report;1");
    let again = recording.object("/data/report;2");
    let reader = recording.subject("/bin/mail[3];1");
    recording.read(old, reader, 1);
    recording.write(stager, made, 2);
    recording.read(study, stager, 3);
    recording.write(stager, again, 4);
    folder.take(&recording, "second").expect(DONE);
    assert_eq!(
        folder.names_behind("mail"),
        [
            "/bin/mail[3]",
            "/bin/stager[1]",
            "/data/report",
            "/data/study 1"
        ]
    );
    assert_eq!(
        folder.names_behind("/data/report;2"),
        ["/bin/stager[2]", "/data/report;2"]
    );
    assert_eq!(
        folder.names_behind("report"),
        ["/bin/stager[2]", "/data/report;3", "/data/study 2"]
    );
    // The next recording that finds a report finds the third.
    let mut third = Recording::at(&moment(2000));
    let report = third.object("/data/report");
    let archive = third.subject("/bin/archive[4];1");
    third.read(report, archive, 1);
    folder.take(&third, "third").expect(DONE);
    assert!(folder
        .names_behind("archive")
        .contains(&"/data/report;3".to_string()));
}

/// Entities are declared in the order of their first events, and made in that of their numbers: the last made is the latest.
#[test]
fn the_last_made_is_the_latest_in_whatever_order_they_are_declared() {
    for numbers in [[1, 2], [2, 1], [2, 10], [10, 2]] {
        let mut recording = Recording::at(START);
        for (time, number) in (1..).zip(numbers) {
            let study = recording.object(format!("/data/study {number}"));
            let stager = recording.subject(format!("/bin/stager[{number}];1"));
            let report = recording.object(format!("/data/report;{number}"));
            recording.read(study, stager, time);
            recording.write(stager, report, time);
        }
        let last = numbers.into_iter().max().unwrap();
        let folder = Folder::with(&recording);
        let mut next = Recording::at(&moment(1000));
        let report = next.object("/data/report");
        let archive = next.subject("/bin/archive[4];1");
        next.read(report, archive, 1);
        folder.take(&next, "next").expect(DONE);
        for name in ["report", "archive"] {
            let behind = folder.names_behind(name);
            for number in numbers {
                let study = format!("/data/study {number}");
                assert_eq!(
                    behind.contains(&study),
                    number == last,
                    "{numbers:?}: {behind:?}"
                );
            }
        }
    }
}

/// What stood before is the first of its name, also where it is used only after it was made anew.
#[test]
fn what_stood_before_comes_before_what_was_made() {
    let mut recording = Recording::at(START);
    let study = recording.object("/data/study");
    let stager = recording.subject("/bin/stager[1];1");
    let made = recording.object("/data/report;1");
    let old = recording.object("/data/report");
    recording.read(study, stager, 1);
    recording.write(stager, made, 2);
    recording.read(old, stager, 3);
    let folder = Folder::with(&recording);
    assert!(folder
        .names_behind("report")
        .contains(&"/data/study".to_string()));
    assert_eq!(folder.names_behind("/data/report;1"), ["/data/report"]);
    // Before any of them has an event, the latest is meant too.
    assert!(folder
        .names_reached("report", "0")
        .contains(&"/data/report;2".to_string()));
}

/// A file in one recording, a program in the next under the same name: never one entity.
#[test]
fn another_sort_is_another_entity() {
    let mut first = Recording::at(START);
    first.object("/bin/thing");
    let folder = Folder::with(&first);
    let mut second = Recording::at(&moment(100));
    second.subject("/bin/thing");
    second.subject("/bin/thing");
    folder.take(&second, "second").expect(DONE);
    let names: Vec<Vec<u8>> = folder.list().into_values().flatten().collect();
    assert_eq!(
        names,
        [&b"/bin/thing"[..], b"/bin/thing;2", b"/bin/thing;3"]
    );
    let mut third = Recording::at(&moment(200));
    third.object("/bin/thing");
    folder.take(&third, "third").expect(DONE);
    assert_eq!(folder.list().len(), 4);
}

/// Two entities of a recording are two, though both lines have one name that the trail knows.
#[test]
fn a_name_twice_in_one_recording() {
    let folder = Folder::with(&night(START, 1, "/data/report"));
    let mut second = Recording::at(&moment(1000));
    let first = second.object("/data/report");
    let other = second.object("/data/report");
    let reader = second.subject("/bin/mail[3];1");
    second.read(other, reader, 1);
    second.read(first, reader, 2);
    folder.take(&second, "second").expect(DONE);
    let at = |time: &str| {
        let run = folder.json(["back", "mail", "--at", time]).expect(DONE);
        texts(&run.json())
    };
    assert_eq!(at("1001"), ["/bin/mail[3]", "/data/report;2"]);
    assert_eq!(at("1002").len(), 5);
}

/// Process numbers come again: a program started in a recording is a new one.
#[test]
fn a_program_started_again_under_the_same_number() {
    let folder = Folder::with(&night(START, 1, "/data/report;1"));
    folder
        .take(&night(&moment(1000), 1, "/data/other;1"), "second")
        .expect(DONE);
    assert_eq!(
        folder.names_behind("other"),
        ["/bin/stager[1];2", "/data/other", "/data/study 1"]
    );
    assert_eq!(folder.names_behind("stager").len(), 2);
}
