//! A state file whose checksum holds, but whose fields do not: damaged, exit 5, and never a panic.

use crate::common::folder::Folder;
use crate::common::recording::worked;
use crate::common::run::{DAMAGED, DONE};
use crate::common::say;
use crate::common::state_file::StateFile;

type Edit = (&'static str, fn(&mut StateFile));

const NONE: u32 = u32::MAX;

// The worked trail: 4 entities, 5 versions (the last a second one of the stager), 4 edges, 7 accepted, last time 7.
#[rustfmt::skip]
const EDITS: &[Edit] = &[
    ("another mark", |s| s.magic[7] = b'F'),
    ("format 0", |s| s.format = 0),
    ("format 2", |s| s.format = 2),
    ("start neither there nor missing", |s| s.has_start = 2),
    ("no start, but a moment", |s| s.has_start = 0),
    ("one entity more than rows", |s| s.counts[0] += 1),
    ("one entity fewer than rows", |s| s.counts[0] -= 1),
    ("most entities", |s| s.counts[0] = NONE),
    ("one version more than rows", |s| s.counts[1] += 1),
    ("most versions", |s| s.counts[1] = NONE),
    ("one edge more than rows", |s| s.counts[2] += 1),
    ("most edges", |s| s.counts[2] = NONE),
    ("accepted above the counts of edges", |s| s.counts[3] += 1),
    ("accepted below the counts of edges", |s| s.counts[3] -= 1),
    ("accepted above 1,000,000", |s| s.counts[3] = 1_000_001),
    ("last time below an edge's", |s| s.counts[4] = 5),
    ("sort 3", |s| s.entities[0][0] = 3),
    ("an object made a subject", |s| s.entities[0][0] = 1),
    ("latest version that does not exist", |s| s.entities[1][1] = 5),
    ("latest version of another entity", |s| s.entities[1][1] = 0),
    ("version of an entity that does not exist", |s| s.versions[2][0] = 4),
    ("start after end", |s| s.versions[0][1] = 1),
    ("end after the last time", |s| s.versions[2][2] = 8),
    ("a first version with a previous", |s| s.versions[1][3] = 0),
    ("a later version without previous", |s| s.versions[4][3] = NONE),
    ("a previous of another entity", |s| s.versions[4][3] = 0),
    ("a previous that is itself", |s| s.versions[4][3] = 4),
    ("edge from a version that does not exist", |s| s.edges[0][0] = 5),
    ("edge to a version that does not exist", |s| s.edges[0][1] = 5),
    ("edge to the same entity", |s| s.edges[0][1] = 0),
    ("kind 0", |s| s.edges[0][2] = 0),
    ("kind 6", |s| s.edges[0][2] = 6),
    ("a read made a write", |s| s.edges[0][2] = 2),
    ("time 0", |s| s.edges[0][3] = 0),
    ("times that fall", |s| s.edges[0][3] = 3),
    ("count 0", |s| s.edges[0][4] = 0),
    ("last before the time", |s| s.edges[1][5] = 1),
    ("last after the trail's", |s| s.edges[3][5] = 8),
    ("names text one byte longer than said", |s| s.names_length -= 1),
    ("names text one byte shorter than said", |s| s.names_length += 1),
    ("most bytes of names", |s| s.names_length = u64::MAX),
    ("a name without an end", |s| s.set_names(b"a\nb\nc\nd")),
    ("a name too few", |s| s.set_names(b"a\nb\nc\n")),
    ("a name too many", |s| s.set_names(b"a\nb\nc\nd\ne\n")),
    ("a name twice", |s| s.set_names(b"a\nb\na\nd\n")),
    ("no names", |s| s.set_names(b"")),
    ("one file more than said", |s| s.taken_count = 0),
    ("one file fewer than said", |s| s.taken_count = 2),
    ("most files", |s| s.taken_count = NONE),
    ("a file's name one byte longer than said", |s| s.taken[0].name_length -= 1),
    ("a file's name one byte shorter than said", |s| s.taken[0].name_length += 1),
    ("longest name of a file", |s| s.taken[0].name_length = NONE),
    ("bytes after the last field", |s| s.rest = vec![0]),
];

#[test]
fn each_unsound_field_is_told() {
    let folder = Folder::with(&worked());
    let whole = folder.state_file();
    assert_eq!(whole.counts, [4, 5, 4, 7, 7]);
    assert_eq!(
        whole.bytes(),
        folder.state(),
        "the state file as the design has it"
    );
    for (what, edit) in EDITS {
        let mut state = whole.clone();
        edit(&mut state);
        folder.set_state(&state.bytes());
        let before = folder.contents();
        for call in [
            &["check"][..],
            &["list"],
            &["back", "#0"],
            &["take", "first.slt"],
            &["sign", "#0"],
        ] {
            let run = folder.json(call);
            assert_eq!(
                run.code(),
                DAMAGED,
                "{what}: {call:?} said {}",
                run.out_text()
            );
            run.error();
        }
        assert!(folder.contents() == before, "{what}: something was written");
    }
    say(&format!(
        "unsound states with a right checksum: {}",
        EDITS.len()
    ));
}

/// Each number of the rows and counts in turn, with several values: sound or damaged, no third.
#[test]
fn any_number_anywhere_is_sound_or_damaged() {
    let folder = Folder::with(&worked());
    let whole = folder.state();
    let (mut sound, mut damaged) = (0, 0);
    let from = 8 + 4 + 12;
    let to = from + 20 + 4 * 8 + 5 * 16 + 4 * 24;
    for place in (from..to).step_by(4) {
        for value in [0, 1, 2, 7, 0x8000_0000, NONE] {
            let mut body = whole[..whole.len() - 32].to_vec();
            body[place..place + 4].copy_from_slice(&u32::to_le_bytes(value));
            folder.set_state(&crate::common::state_file::with_checksum(body));
            let code = folder.run(["check"]).code();
            assert!(
                [DONE, DAMAGED].contains(&code),
                "{value} at {place} gave {code}"
            );
            if code == DONE {
                sound += 1;
                for call in [
                    &["back", "report"][..],
                    &["forward", "study"],
                    &["stats"],
                    &["list"],
                ] {
                    folder.run(call).expect(DONE);
                }
            } else {
                damaged += 1;
            }
        }
    }
    say(&format!(
        "any number anywhere: {sound} states sound, {damaged} damaged"
    ));
    assert!(sound > 0 && damaged > 100);
}
