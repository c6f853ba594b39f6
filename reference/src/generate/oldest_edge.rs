//! Files in which each repeat tries all edges, since its hit is the oldest.

use crate::capacity::MOST_EDGES;
use crate::file_builder::FileBuilder;
use crate::record::{Event, Kind};

/// One in this many of the edges after the first is a fork.
const FORK_ONE_IN: u32 = 10;

/// Subject 1 reads object 0; then object 2 is run by subject 3, which forks
/// subject 4 now and then, until all edge rows are in use. No edge is tried:
/// there is none at the read, and forks and execves try none.
pub fn filled_edges() -> FileBuilder {
    let file = FileBuilder::new().object(0).subject(1);
    let file = file.object(2).subject(3).subject(4);
    let later = |file: FileBuilder, time: u32| match time % FORK_ONE_IN {
        0 => file.fork(3, 4, time),
        _ => file.execve(2, 3, time),
    };
    (2..=MOST_EDGES as u32).fold(file.read(0, 1, 1), later)
}

/// Adds so many reads and loads of object 0 by subject 1, at the times after
/// those of the filled edges. Each tries all edges.
pub fn with_repeats_of_oldest(file: FileBuilder, count: u32) -> FileBuilder {
    let filled = MOST_EDGES as u32;
    let event = |time: u32| Event {
        kind: [Kind::Read, Kind::Load][(time % 2) as usize],
        source: 0,
        target: 1,
        time,
    };
    let times = filled + 1..=filled + count;
    times.fold(file, |file, time| file.event(event(time)))
}
