//! Files that the trail has already, and files older than the trail.

use crate::common::folder::Folder;
use crate::common::recording::{is_gone, offset, worked, Files, Recording};
use crate::common::recordings::{moment, START};
use crate::common::run::{DONE, REFUSED};

#[test]
fn a_file_taken_before_is_said_and_skipped() {
    let folder = Folder::with(&worked());
    let before = folder.contents();
    folder
        .run(["take", "first.slt"])
        .expect(DONE)
        .says(&["first.slt", "before"]);
    folder.json(["take", "first.slt"]).expect(DONE).json();
    // Under another name, and twice in one call.
    folder.put(&worked(), "again");
    folder
        .run(["take", "again.slt", "first.slt", "again.slt"])
        .expect(DONE)
        .says(&["again.slt", "before"]);
    assert!(folder.state() == before[&folder.state_path()]);
}

#[test]
fn a_file_given_twice_is_taken_once() {
    let folder = Folder::new();
    folder.put(&worked(), "night");
    folder
        .run(["take", "night.slt", "./night.slt"])
        .expect(DONE)
        .says(&["before"]);
    let state = folder.state_file();
    assert_eq!((state.taken.len(), state.counts[3]), (1, 7));
    folder
        .run(["take", "--remove", "night.slt", "./night.slt"])
        .expect(DONE);
    assert!(is_gone(&folder.join("night.slt")));
}

#[test]
fn the_name_without_its_end_finds_the_file() {
    let folder = Folder::new();
    let path = folder.put(&worked(), "night");
    std::fs::rename(&path, folder.join("night")).unwrap();
    folder.run(["take", "night"]).expect(DONE);
    assert!(folder.state_file().has_taken(&worked().files()));
    assert_eq!(folder.names_behind("report").len(), 4);
}

/// The same bytes with another start, other names, without either: each is another file.
#[test]
fn the_bytes_alone_do_not_make_it_the_same_file() {
    let first = worked().files();
    let mut later = first.clone();
    later.start = Some(format!("{}\n", moment(6000)).into_bytes());
    let mut renamed = later.clone();
    renamed.names = Some(b"/data/s\n/bin/other[8]\n/data/r\n/data/m\n".to_vec());
    renamed.start = Some(format!("{}\n", moment(12_000)).into_bytes());
    let folder = Folder::new();
    for (number, files) in [&first, &later, &renamed].into_iter().enumerate() {
        folder
            .take_files(files, &format!("night {number}"))
            .expect(DONE);
        let state = folder.state_file();
        assert_eq!(state.taken.len(), number + 1);
        assert_eq!(state.counts[3] as usize, 7 * (number + 1));
        assert!(state.has_taken(files));
    }
    assert_eq!(folder.state_file().counts[0], 8);
}

#[test]
fn a_file_that_grew_is_another_file() {
    let folder = Folder::with(&worked());
    let mut grown = worked();
    grown.read(0, 1, 8);
    // Its first seven events are older than the trail by now.
    let run = folder.json({
        folder.put(&grown, "first");
        ["take", "first.slt"]
    });
    assert_eq!(run.expect(REFUSED).error()["refusal"], 9);
    grown.start = Some(moment(100));
    folder.take(&grown, "first").expect(DONE);
    assert_eq!(folder.state_file().counts[3], 15);
}

#[test]
fn removal_of_a_file_taken_before() {
    let folder = Folder::with(&worked());
    let state = folder.state();
    folder
        .run(["take", "--remove", "first.slt"])
        .expect(DONE)
        .says(&["before"]);
    assert!(is_gone(&folder.join("first.slt")));
    assert!(folder.state() == state);
}

/// Names and start go with the event file, and nothing else does.
#[test]
fn removal_takes_the_three_files_alone() {
    let folder = Folder::new();
    folder.put(&worked(), "night");
    for other in ["night", "night.txt", "night.slt.bak", "night 2.slt"] {
        std::fs::write(folder.join(other), "other").unwrap();
    }
    folder.run(["take", "--remove", "night.slt"]).expect(DONE);
    assert!(is_gone(&folder.join("night.slt")));
    for other in ["night", "night.txt", "night.slt.bak", "night 2.slt"] {
        assert_eq!(std::fs::read(folder.join(other)).unwrap(), b"other");
    }
}

#[test]
fn without_removal_the_files_stay() {
    let folder = Folder::with(&worked());
    assert_eq!(
        Files::get(&folder.join("first.slt")),
        Some(worked().files())
    );
}

#[test]
fn an_older_file_is_refused_and_one_of_equal_time_taken() {
    let folder = Folder::with(&worked());
    let night = |start: String, time: u32| {
        let mut recording = Recording::at(&start);
        let program = recording.subject("/bin/stager[7]");
        let report = recording.object("/data/report");
        recording.write(program, report, time);
        recording
    };
    // The trail's last event is at 7.
    let older = night(START.to_string(), 6);
    folder.put(&older, "older");
    let before = folder.state();
    let error = folder.json(["take", "older.slt"]).expect(REFUSED).error();
    assert_eq!(
        (&error["refusal"], &error["record"], &error["byte"]),
        (&9.into(), &3.into(), &offset(3).into())
    );
    folder
        .run(["take", "--remove", "older.slt"])
        .expect(REFUSED)
        .says(&["older than the trail", "older.slt"]);
    assert!(folder.state() == before);
    assert_eq!(Files::get(&folder.join("older.slt")), Some(older.files()));

    folder
        .take(&night(START.to_string(), 7), "equal")
        .expect(DONE);
    folder
        .take(&night(moment(3), 4), "equal, with a later start")
        .expect(DONE);
    assert_eq!(folder.state_file().counts[3..], [9, 7]);
    // It starts before the trail does, but its event is not older than the trail's last.
    folder
        .take(
            &night("2026-11-17T19:20:40.00".to_string(), 600),
            "early start",
        )
        .expect(DONE);
    assert_eq!(folder.state_file().counts[3..], [10, 600 - 512]);
}

#[test]
fn an_event_before_the_start_of_the_trail_is_older_than_it() {
    let folder = Folder::new();
    let mut declared = Recording::at(START);
    declared.object("/data/study");
    folder.take(&declared, "declared").expect(DONE);
    let mut early = Recording::at("2026-11-17T19:20:40.00");
    let program = early.subject("/bin/stager[7]");
    let report = early.object("/data/report");
    early.write(program, report, 1);
    let before = folder.state();
    folder.put(&early, "early");
    folder
        .run(["take", "early.slt"])
        .expect(REFUSED)
        .says(&["older than the trail"]);
    let error = folder.json(["take", "early.slt"]).expect(REFUSED).error();
    assert_eq!(
        (&error["refusal"], &error["record"]),
        (&9.into(), &3.into())
    );
    assert!(folder.state() == before);
}
