//! The event file of the worked trail, and one with its report signed.

use crate::file_builder::FileBuilder;
use crate::file_version::FileVersion;

/// Its declarations.
pub fn worked_declarations() -> FileBuilder {
    declarations(FileVersion::One)
}

fn declarations(version: FileVersion) -> FileBuilder {
    let file = FileBuilder::of_version(version);
    file.object(0).subject(1).object(2).object(3)
}

/// The file with its first event at this time; in the worked trail it is 1.
pub fn worked_file_from(time: u32) -> Vec<u8> {
    with_events(worked_declarations(), time).bytes()
}

pub fn worked_file() -> Vec<u8> {
    worked_file_from(1)
}

/// The worked trail in a version 2 file, at its end the report signed.
pub fn worked_signed_file() -> FileBuilder {
    with_events(declarations(FileVersion::Two), 1).sign(2)
}

/// Adds the events, the first at this time.
fn with_events(file: FileBuilder, time: u32) -> FileBuilder {
    file.read(0, 1, time)
        .write(1, 2, 2)
        .read(0, 1, 3)
        .write(1, 2, 4)
        .read(3, 1, 5)
        .write(1, 2, 6)
        .read(3, 1, 7)
}
