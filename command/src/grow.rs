//! A state grown by a recording, all of it or nothing.

use crate::failure::{Exit, Failure};
use crate::join::{join, lines_of};
use crate::moment::Moment;
use crate::names::Names;
use crate::path::shown;
use crate::recording::Recording;
use crate::refused::{Attempt, Stage};
use crate::shift::{move_times, Shift, TooLate};
use crate::state::{Digest, State, TakenFile};
use std::os::unix::ffi::OsStrExt;
use trail::{Counts, Trail};

/// The recording's file in the numbers and times of the trail, or all before a record that is too late.
struct Prepared {
    file: Vec<u8>,
    /// For each of its records, the number that it has in the recording; none if each has its own.
    original: Option<Vec<u32>>,
    names: Names,
    too_late: Option<TooLate>,
}

/// The state with a recording taken in; `fresh` is a fresh trail, and the digest is the recording's.
pub fn grow(
    state: &State,
    fresh: &Trail,
    recording: &Recording,
    digest: Digest,
) -> Result<State, Failure> {
    let start = recording.start()?;
    let (trail_start, shift) = meet(state, recording, start)?;
    let attempt = |stage| Attempt {
        state,
        recording,
        start,
        stage,
    };
    let prepared = prepare(&attempt(Stage::Alone), fresh, shift)?;
    let attempt = attempt(Stage::InTrail(shift));
    let mut trail = state.trail.clone();
    if let Err(refused) = trail.batch(&prepared.file) {
        let record = match (&prepared.original, refused.record.checked_sub(1)) {
            (Some(original), Some(index)) => original[index as usize],
            _ => refused.record,
        };
        return Err(attempt.refused(refused.refusal, record, trail.counts().entities));
    }
    if let Some(too_late) = prepared.too_late {
        return Err(attempt.too_late(too_late));
    }
    let mut names = prepared.names;
    while names.len() < trail.counts().entities as usize {
        names.push_made(b"");
    }
    let mut taken = state.taken.clone();
    taken.push(TakenFile {
        digest,
        records: recording.records(),
        events: trail.counts().accepted - state.trail.counts().accepted,
        name: recording.paths.file.as_os_str().as_bytes().to_vec(),
    });
    Ok(State {
        start: trail_start,
        trail,
        names,
        taken,
    })
}

/// The trail's start once it has the recording, and how far the recording's times move.
fn meet(
    state: &State,
    recording: &Recording,
    start: Option<Moment>,
) -> Result<(Option<Moment>, Shift), Failure> {
    match (state.start, start) {
        (trail, None) => Ok((trail, Shift(0))),
        (Some(trail), Some(start)) => Ok((Some(trail), Shift(start.since(trail)))),
        (None, Some(start)) if state.trail.counts() == Counts::default() => {
            Ok((Some(start), Shift(0)))
        }
        (None, Some(_)) => {
            let reason = format!(
                "it has a start ({}), and the trail has records but no start",
                shown(&recording.paths.start)
            );
            let message = format!("{}: {reason}", shown(&recording.paths.file));
            Err(Failure::new(Exit::Refused, message).with("reason", reason))
        }
    }
}

/// With names, the recording has to be right in itself; then it is joined. Without, its numbers are the trail's own.
fn prepare(attempt: &Attempt, fresh: &Trail, shift: Shift) -> Result<Prepared, Failure> {
    let (state, recording) = (attempt.state, attempt.recording);
    let Some(text) = &recording.names else {
        let (file, too_late) = move_times(&recording.file, shift);
        return Ok(Prepared {
            file,
            original: None,
            names: state.names.clone(),
            too_late,
        });
    };
    let mut alone = fresh.clone();
    let taken = alone.batch(&recording.file);
    let entities = alone.counts().entities;
    taken.map_err(|refused| attempt.refused(refused.refusal, refused.record, entities))?;
    let lines = lines_of(text, &recording.paths.names, entities)?;
    let joined = join(state, recording, &lines, shift);
    Ok(Prepared {
        file: joined.file.into_bytes(),
        original: Some(joined.original),
        names: joined.names,
        too_late: joined.too_late,
    })
}

#[cfg(test)]
pub mod tests;
