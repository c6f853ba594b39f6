//! Several files in one call: one commit, in their order; each as a whole or not at all.

use crate::common::folder::Folder;
use crate::common::random::Random;
use crate::common::recording::{worked, Files, Recording};
use crate::common::recordings::{long, moment, HOUR};
use crate::common::run::{DONE, INPUT_OUTPUT, REFUSED};

#[test]
fn in_one_call_or_in_turn_the_state_is_the_same() {
    let mut random = Random::new(31);
    let nights: Vec<Recording> = (0..3)
        .map(|night| long(&mut random, night * HOUR, 300))
        .collect();
    let (one, turn) = (Folder::new(), Folder::new());
    for (number, night) in nights.iter().enumerate() {
        one.put(night, &number.to_string());
        turn.put(night, &number.to_string());
        turn.run(["take", &format!("{number}.slt")]).expect(DONE);
    }
    one.run(["take", "0.slt", "1.slt", "2.slt"]).expect(DONE);
    assert!(one.state() == turn.state());
    let state = one.state_file();
    for (file, night) in state.taken.iter().zip(&nights) {
        assert_eq!(file.events as usize, night.events());
        assert_eq!(file.records as usize, night.records.len());
        assert!(state.has_taken(&night.files()));
    }
}

/// A file that is refused near its end leaves nothing of itself.
#[test]
fn a_file_refused_at_its_last_record_leaves_nothing() {
    let mut random = Random::new(37);
    let folder = Folder::with(&long(&mut random, 0, 300));
    let mut bad = long(&mut random, HOUR, 3000);
    bad.read(0, 1, 1);
    let record = bad.records.len();
    let before = folder.contents();
    folder.put(&bad, "bad");
    let error = folder.json(["take", "bad.slt"]).expect(REFUSED).error();
    assert_eq!(
        (&error["refusal"], &error["record"]),
        (&9.into(), &record.into())
    );
    assert!(folder.state() == before[&folder.state_path()]);
}

#[test]
fn a_file_that_is_missing() {
    let folder = Folder::with(&worked());
    let mut next = Recording::at(&moment(100));
    next.object("/data/next");
    folder.put(&next, "next");
    let state = folder.state();
    folder
        .run(["take", "missing.slt"])
        .expect(INPUT_OUTPUT)
        .says(&["missing.slt"]);
    assert!(folder.state() == state);
    let run = folder
        .json(["take", "--remove", "next.slt", "missing.slt"])
        .expect(INPUT_OUTPUT);
    run.error();
    // All before it or none: either way nothing is lost.
    let taken = folder.state_file().has_taken(&next.files());
    assert_eq!(taken, folder.state() != state);
    assert!(taken || Files::get(&folder.join("next.slt")) == Some(next.files()));
}

/// A recording without names: its numbers are the trail's own, and it goes on where the trail's end.
#[test]
fn without_names_the_numbers_are_those_of_the_trail() {
    let folder = Folder::with(&worked());
    let mut more = Recording::at(&moment(100));
    let stager = 1;
    more.records
        .push(crate::common::recording::Record::Declaration(
            crate::common::recording::Sort::Object,
        ));
    more.write(stager, 4, 1);
    let mut files = more.files();
    files.names = None;
    // Its declaration is of number 4, the next of the trail.
    files.events[10] = 4;
    folder.take_files(&files, "more").expect(DONE);
    assert_eq!(
        folder.back(4, "200").into_keys().collect::<Vec<u32>>(),
        [0, 1, 3, 4]
    );
    assert_eq!(folder.list()[&4], None, "it has no name");
    assert_eq!(folder.state_file().counts[4], 101);
}
