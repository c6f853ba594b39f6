//! Full tables: the command says which, what that means and what can be done, exit 4, and nothing is lost.

use crate::common::folder::Folder;
use crate::common::recording::{offset, Files, Kind, Recording};
use crate::common::recordings::{moment, HOUR, START};
use crate::common::run::{Run, DONE, FULL};

const ENTITIES: usize = 4096;
const VERSIONS: usize = 65_536;
const EDGES: usize = 262_144;
const ACCEPTED: usize = 1_000_000;

/// Into this trail the recording does not go: which table is told, and the record; trail and recording stay as they are.
fn expect_full(
    folder: &Folder,
    recording: &Recording,
    number: u32,
    record: usize,
    table: &str,
) -> Run {
    let path = folder.put(recording, "more");
    let before = folder.state();
    let run = folder.json(["take", "--remove", "more.slt"]).expect(FULL);
    let error = run.error();
    assert_eq!(error["refusal"], number, "{error}");
    assert_eq!(error["record"], record, "{error}");
    assert_eq!(error["byte"], offset(record), "{error}");
    assert!(folder.state() == before, "the state changed");
    assert_eq!(
        Files::get(&path),
        Some(recording.files()),
        "the recording is still there"
    );
    folder.run(["check"]).expect(DONE);
    let run = folder.run(["take", "more.slt"]).expect(FULL);
    run.says(&["more.slt", table]);
    run
}

/// As above, and what can be done is told.
fn expect_trail_full(
    folder: &Folder,
    recording: &Recording,
    number: u32,
    record: usize,
    table: &str,
) {
    let run = expect_full(folder, recording, number, record, table);
    run.says(&["nothing is lost", "fresh trail", "kept log"]);
}

/// So many objects with names of their own.
fn objects(start: &str, from: usize, count: usize) -> Recording {
    let mut recording = Recording::at(start);
    for number in from..from + count {
        recording.object(format!("/data/{number}"));
    }
    recording
}

#[test]
fn one_entity_more_than_fit() {
    let folder = Folder::with(&objects(START, 0, ENTITIES - 2));
    // Two are in the trail already, two fit, the fifth does not.
    let mut more = objects(&moment(100), ENTITIES - 4, 5);
    expect_trail_full(&folder, &more, 10, 5, "4,096 entities");
    more.records.pop();
    more.lines.pop();
    folder.take(&more, "fits").expect(DONE);
    assert_eq!(folder.state_file().counts[0] as usize, ENTITIES);
    // Names that are there already still fit.
    folder
        .take(&objects(&moment(200), 0, 3), "known")
        .expect(DONE);
    expect_trail_full(
        &folder,
        &objects(&moment(300), 9999, 1),
        10,
        1,
        "4,096 entities",
    );
}

#[test]
fn a_file_alone_with_too_many_entities() {
    let folder = Folder::new();
    let recording = objects(START, 0, ENTITIES + 1);
    let run = expect_full(&folder, &recording, 10, ENTITIES + 1, "4,096 entities");
    run.says(&["shorter"]);
}

/// Reads and writes in turn between a file and a program: each makes a version.
#[test]
fn one_version_more_than_fit() {
    let mut recording = Recording::at(START);
    let file = recording.object("/data/file");
    let program = recording.subject("/bin/program[1]");
    let mut more = recording.clone();
    more.start = Some(moment(HOUR));
    // The first read makes none, since the program has given nothing yet.
    for event in 0..VERSIONS - 1 {
        let time = 1 + (event / 2) as u32;
        match event % 2 {
            0 => recording.read(file, program, time),
            _ => recording.write(program, file, time),
        }
    }
    let folder = Folder::with(&recording);
    assert_eq!(folder.state_file().counts[1] as usize, VERSIONS);
    more.write(program, file, 1);
    expect_trail_full(&folder, &more, 11, 3, "65,536 versions");
    // A declaration makes a version too.
    expect_trail_full(
        &folder,
        &objects(&moment(HOUR), 0, 1),
        11,
        1,
        "65,536 versions",
    );
}

/// Forks are never repeats: each keeps an edge.
#[test]
fn one_edge_more_than_fit() {
    let mut recording = Recording::at(START);
    let parent = recording.subject("/bin/parent[1]");
    let child = recording.subject("/bin/child[2]");
    let mut more = recording.clone();
    more.start = Some(moment(HOUR));
    for _ in 0..EDGES {
        recording.event(Kind::Fork, parent, child, 1);
    }
    let folder = Folder::with(&recording);
    assert_eq!(folder.state_file().counts[2] as usize, EDGES);
    more.event(Kind::Fork, parent, child, 1);
    expect_trail_full(&folder, &more, 12, 3, "262,144 edges");
}

/// Some 1,000,000 events in several recordings; then the advice is followed: the kept log into a fresh trail frees them.
#[test]
fn one_event_more_than_are_accepted() {
    let folder = Folder::new();
    let part = |number: u32, events: usize| {
        let mut recording = Recording::at(&moment(number * HOUR));
        let file = recording.object("/data/file");
        let program = recording.subject("/bin/program[1]");
        let report = recording.object("/data/report");
        for event in 0..events {
            match event % 2 {
                0 => recording.read(file, program, 1 + event as u32),
                _ => recording.write(program, report, 1 + event as u32),
            }
        }
        recording
    };
    for number in 0..4 {
        folder.put(&part(number, ACCEPTED / 4), &format!("part {number}"));
    }
    folder
        .run(["take", "part 0.slt", "part 1.slt"])
        .expect(DONE);
    folder
        .run(["take", "--remove", "part 2.slt", "part 3.slt"])
        .expect(DONE);
    assert_eq!(folder.state_file().counts[3] as usize, ACCEPTED);
    let more = part(4, 3);
    expect_trail_full(&folder, &more, 13, 4, "1,000,000 accepted events");

    folder.run(["log", "kept.slt"]).expect(DONE);
    let fresh = Folder::new();
    fresh
        .run(["take".into(), folder.join("kept.slt")])
        .expect(DONE);
    assert_eq!(fresh.list(), folder.list());
    let freed = fresh.state_file().counts;
    assert_eq!(freed[3], freed[2], "as many events as edges");
    fresh.take(&more, "more").expect(DONE);
    let behind = ["/bin/program[1]", "/data/file", "/data/report"];
    assert_eq!(fresh.names_behind("report"), behind);
    assert_eq!(folder.names_behind("report"), behind);
}
