//! The time asked about: hundredths or a moment.

use crate::common::answers::texts;
use crate::common::folder::Folder;
use crate::common::recording::worked;
use crate::common::recordings::{moment, START};
use crate::common::run::{DONE, USAGE};

/// How many stand behind the report, itself counted. At 1 nothing has come into it, at 2 study and stager, at 6 the montage too.
#[track_caller]
fn expect_behind(folder: &Folder, at: &str, count: usize) {
    let run = folder.json(["back", "report", "--at", at]).expect(DONE);
    assert_eq!(texts(&run.json()).len(), count, "at {at}");
}

#[test]
fn hundredths_and_moments() {
    let folder = Folder::with(&worked());
    for (time, count) in [(1, 1), (2, 3), (5, 3), (6, 4), (7, 4), (100_000, 4)] {
        expect_behind(&folder, &time.to_string(), count);
        expect_behind(&folder, &moment(time), count);
        expect_behind(&folder, &moment(time).replace('T', " "), count);
    }
    for (at, count) in [
        (START, 1),
        ("2026-11-17T19:21", 4),
        ("2026-11-17T19:20:46", 4),
        ("2026-11-18", 4),
        ("4294967295", 4),
    ] {
        expect_behind(&folder, at, count);
    }
}

/// Before the start nothing had happened yet; after the last time that there is, everything.
#[test]
fn moments_outside_the_times_of_the_trail() {
    let folder = Folder::with(&worked());
    expect_behind(&folder, "2026-11-17T19:20:45.11", 1);
    expect_behind(&folder, "1970-01-01", 1);
    expect_behind(&folder, "2099-12-31", 4);
}

#[test]
fn what_is_no_time() {
    let folder = Folder::with(&worked());
    for wrong in [
        "",
        "yesterday",
        "-1",
        "1.5",
        "4294967296",
        "99999999999999999999",
        "2026-11-31",
        "2026-11-17T25:00",
        "2026-11-17T19:20:45.1234",
        "2026-11-17X19:20",
        " 5",
        "0x10",
    ] {
        let at = format!("--at={wrong}");
        folder.run(["back", "report", &at]).expect(USAGE);
        folder
            .json(["forward", "report", &at])
            .expect(USAGE)
            .error();
    }
}
