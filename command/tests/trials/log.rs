//! The kept log: its bytes, and that it overwrites nothing.

use crate::common::folder::Folder;
use crate::common::random::Random;
use crate::common::recording::{encode, header, worked, Kind, Record, Sort};
use crate::common::recordings::{long, START};
use crate::common::run::{DONE, USAGE};
use crate::common::state_file::StateFile;
use std::fs;

/// The log as the rows of the state give it: declarations, edges as events, signatures.
fn expected(state: &StateFile) -> Vec<u8> {
    let signed: Vec<u16> = (0..)
        .zip(&state.entities)
        .filter(|(_, row)| row[0] == 2)
        .map(|(entity, _)| entity)
        .collect();
    let mut bytes = header(if signed.is_empty() { 1 } else { 2 });
    for (number, row) in (0..).zip(&state.entities) {
        let sort = if row[0] == 1 {
            Sort::Subject
        } else {
            Sort::Object
        };
        bytes.extend(encode(Record::Declaration(sort), number));
    }
    let kinds = [
        Kind::Read,
        Kind::Write,
        Kind::Load,
        Kind::Fork,
        Kind::Execve,
    ];
    let entity = |version: u32| state.versions[version as usize][0] as u16;
    for edge in &state.edges {
        let event = Record::Event {
            kind: kinds[edge[2] as usize - 1],
            source: entity(edge[0]),
            target: entity(edge[1]),
            time: edge[3],
        };
        bytes.extend(encode(event, 0));
    }
    for object in signed {
        bytes.extend(encode(Record::Signature(object), 0));
    }
    bytes
}

#[test]
fn the_log_is_what_the_rows_say() {
    let mut random = Random::new(53);
    let folder = Folder::with(&long(&mut random, 0, 2000));
    folder.run(["log", "kept.slt"]).expect(DONE);
    folder.run(["sign", "study 0.edf", "#2"]).expect(DONE);
    folder.run(["log", "signed.slt"]).expect(DONE);
    let mut state = folder.state_file();
    assert!(fs::read(folder.join("signed.slt")).unwrap() == expected(&state));
    for row in state.entities.iter_mut().filter(|row| row[0] == 2) {
        row[0] = 0;
    }
    assert!(fs::read(folder.join("kept.slt")).unwrap() == expected(&state));
    for base in ["kept", "signed"] {
        assert!(fs::read(folder.join(&format!("{base}.names"))).unwrap() == state.names);
        assert_eq!(
            fs::read_to_string(folder.join(&format!("{base}.start"))).unwrap(),
            format!("{START}\n")
        );
    }
}

#[test]
fn a_file_that_is_there_is_left_alone() {
    for there in ["kept.slt", "kept.names", "kept.start"] {
        let folder = Folder::with(&worked());
        fs::write(folder.join(there), "mine").unwrap();
        let before = folder.contents();
        folder.run(["log", "kept.slt"]).expect(USAGE).says(&[there]);
        folder.json(["log", "kept.slt"]).expect(USAGE).error();
        assert!(folder.contents() == before, "{there}");
    }
}
