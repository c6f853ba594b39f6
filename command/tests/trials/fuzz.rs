//! Recordings and states with random edits: taken, refused or damaged, never a panic and never a trail that is not whole.

use crate::common::folder::Folder;
use crate::common::random::Random;
use crate::common::recording::{worked, Files};
use crate::common::recordings::{generate, Shape, HOUR};
use crate::common::run::{DAMAGED, DONE, FULL, NOT_FOUND, REFUSED};
use crate::common::say;
use crate::common::state_file::{with_checksum, CHECKSUM_LENGTH};

/// Changes, removes, doubles or adds a few bytes.
fn edit(random: &mut Random, bytes: &mut Vec<u8>) {
    for _ in 0..1 + random.below(3) {
        let place = random.below(bytes.len().max(1));
        let any = random.bits() as u8;
        let value = random.pick(&[0, 1, 2, 6, b'\n', b';', b'\\', 0x7F, 0xFF, any]);
        match random.below(6) {
            0 if !bytes.is_empty() => drop(bytes.remove(place)),
            1 => bytes.insert(place, value),
            2 => bytes.truncate(place),
            _ if !bytes.is_empty() => bytes[place] = value,
            _ => bytes.push(value),
        }
    }
}

#[test]
fn recordings_with_random_edits() {
    let mut random = Random::new(61);
    let shape = Shape {
        bases: 5,
        lines: 8,
        events: 12,
        made: 3,
    };
    let folder = Folder::with(&worked());
    let mut ended = [0; 8];
    for number in 1..=250 {
        let mut files: Files = generate(&mut random, number * HOUR, &shape).files();
        match random.below(5) {
            0 => edit(&mut random, files.names.as_mut().unwrap()),
            1 => edit(&mut random, files.start.as_mut().unwrap()),
            _ => edit(&mut random, &mut files.events),
        }
        let before = folder.state();
        let run = folder.take_files(&files, "edited");
        assert!(
            [DONE, REFUSED, FULL].contains(&run.code()),
            "{run:?} of {files:?}"
        );
        assert!(
            run.code() == DONE || folder.state() == before,
            "{run:?} of {files:?}"
        );
        folder.run(["check"]).expect(DONE);
        ended[run.code() as usize] += 1;
    }
    folder.run(["check", "--deep"]).expect(DONE);
    say(&format!(
        "recordings with random edits: {} taken, {} refused, {} too late for the trail",
        ended[0], ended[3], ended[4]
    ));
    assert!(ended[0] > 10 && ended[3] > 100);
}

#[test]
fn states_with_random_edits_and_a_right_checksum() {
    let mut random = Random::new(67);
    let folder = Folder::with(&worked());
    let whole = folder.state();
    let (mut sound, mut damaged) = (0, 0);
    for _ in 0..300 {
        let mut body = whole[..whole.len() - CHECKSUM_LENGTH].to_vec();
        edit(&mut random, &mut body);
        folder.set_state(&with_checksum(body.clone()));
        let code = folder.run(["check"]).code();
        assert!([DONE, DAMAGED].contains(&code), "{code} for {body:?}");
        let calls = [
            &["list"][..],
            &["stats"],
            &["back", "#2"],
            &["forward", "#0"],
            &["sign", "#9"],
        ];
        let call = random.pick(&calls);
        let other = folder.run(call).code();
        if code == DAMAGED {
            damaged += 1;
            assert_eq!(other, DAMAGED, "{call:?} for {body:?}");
        } else {
            sound += 1;
            assert!(
                [DONE, NOT_FOUND].contains(&other),
                "{call:?} gave {other} for {body:?}"
            );
        }
    }
    say(&format!(
        "states with random edits and a right checksum: {sound} sound, {damaged} damaged"
    ));
    assert!(sound > 5 && damaged > 100);
}
