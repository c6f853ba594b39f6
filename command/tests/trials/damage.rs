//! A flipped byte and a cut everywhere in the state file: damaged, exit 5, for readers and writers alike, and nothing is written.

use crate::common::folder::Folder;
use crate::common::random::Random;
use crate::common::recording::{worked, Recording};
use crate::common::recordings::{long, moment, HOUR};
use crate::common::run::{DAMAGED, DONE};
use crate::common::say;
use crate::common::state_file::CHECKSUM_LENGTH;

const CALLS: [&[&str]; 9] = [
    &["stats"],
    &["take", "next.slt"],
    &["list"],
    &["sign", "#0"],
    &["back", "#0"],
    &["take", "--remove", "next.slt"],
    &["forward", "#0"],
    &["log", "kept.slt"],
    &["check", "--deep"],
];

/// A trail of the recording, and a recording that could be taken next.
fn folder(recording: &Recording) -> Folder {
    let folder = Folder::with(recording);
    let mut next = Recording::at(&moment(HOUR));
    next.object("/data/next");
    folder.put(&next, "next");
    folder
}

/// With this state, `check` and one of the other calls give 5 and write nothing.
fn expect_damaged(folder: &Folder, state: &[u8], turn: usize) {
    folder.set_state(state);
    let before = folder.contents();
    folder.run(["check"]).expect(DAMAGED);
    let call = CALLS[turn % CALLS.len()];
    if turn.is_multiple_of(2) {
        folder.run(call).expect(DAMAGED);
    } else {
        folder.json(call).expect(DAMAGED).error();
    }
    assert!(folder.contents() == before, "{call:?} wrote something");
}

#[test]
fn each_byte_of_a_small_state_flipped() {
    let folder = folder(&worked());
    let whole = folder.state();
    let mut random = Random::new(17);
    for place in 0..whole.len() {
        let mut state = whole.clone();
        state[place] ^= 1 + random.below(255) as u8;
        expect_damaged(&folder, &state, place);
    }
    folder.set_state(&whole);
    folder.run(["check", "--deep"]).expect(DONE);
    say(&format!(
        "flipped bytes: each of {} of a state",
        whole.len()
    ));
}

#[test]
fn a_small_state_cut_after_each_byte() {
    let folder = folder(&worked());
    let whole = folder.state();
    for length in 0..whole.len() {
        expect_damaged(&folder, &whole[..length], length);
    }
    let longer = [&whole[..], &[0]].concat();
    expect_damaged(&folder, &longer, 0);
    say(&format!(
        "cuts: after each of {} bytes of a state",
        whole.len()
    ));
}

#[test]
fn every_part_of_a_large_state_flipped_and_cut() {
    let mut random = Random::new(19);
    let folder = folder(&long(&mut random, 0, 20_000));
    let whole = folder.state();
    let mut turn = 0;
    for (from, to) in parts(&folder) {
        for _ in 0..6 {
            let place = from + random.below(to - from);
            let mut state = whole.clone();
            state[place] ^= 1 << random.below(8);
            expect_damaged(&folder, &state, turn);
            expect_damaged(&folder, &whole[..place], turn + 1);
            turn += 1;
        }
    }
    say(&format!(
        "a state of {} bytes: flipped and cut at {turn} places",
        whole.len()
    ));
}

/// Where each part of the state file begins and ends.
fn parts(folder: &Folder) -> Vec<(usize, usize)> {
    let state = folder.state_file();
    let files: usize = state.taken.iter().map(|file| 44 + file.name.len()).sum();
    let lengths = [
        8,
        4,
        12,
        20,
        8 * state.entities.len(),
        16 * state.versions.len(),
        24 * state.edges.len(),
        8,
        state.names.len(),
        4,
        files,
        CHECKSUM_LENGTH,
    ];
    let mut end = 0;
    let parts = lengths.map(|length| {
        end += length;
        (end - length, end)
    });
    assert_eq!(end, folder.state().len());
    parts.to_vec()
}

#[test]
fn a_state_that_is_missing_or_no_file() {
    let folder = folder(&worked());
    std::fs::remove_file(folder.state_path()).unwrap();
    std::fs::create_dir(folder.state_path()).unwrap();
    for call in CALLS {
        let code = folder.run(call).code();
        assert!(
            [5, 7].contains(&code),
            "{call:?} on a folder in place of the state gave {code}"
        );
    }
}
