use super::{join, lines_of, Joined, Line};
use crate::recording::sample::Sample;
use crate::recording::Recording;
use crate::shift::{Shift, TooLate};
use crate::state::State;
use std::path::Path;
use trail::{DeclaredSort, EntityNo, EventFile, Kind, Record, Sort, Time};

pub fn lines_for(recording: &Recording) -> Vec<Line<'_>> {
    let entities = (1..=recording.records())
        .filter(|number| matches!(recording.record(*number), Some(Record::Declaration { .. })))
        .count();
    let text = recording.names.as_ref().unwrap();
    lines_of(text, Path::new("a.names"), entities as u32).unwrap()
}

pub fn joined(state: &State, recording: &Recording) -> Joined {
    join(state, recording, &lines_for(recording), Shift(0))
}

/// The state with a recording joined and taken in.
pub fn with(state: &State, sample: Sample) -> State {
    let joined = joined(state, &sample.recording("a.slt"));
    let mut next = state.clone();
    next.trail.batch(joined.file.as_bytes()).unwrap();
    next.names = joined.names;
    assert_eq!(next.names.len(), next.trail.counts().entities as usize);
    next
}

pub fn empty() -> State {
    State::empty(None).unwrap()
}

fn names(state: &State) -> String {
    String::from_utf8(state.names.text()).unwrap()
}

fn file(records: impl IntoIterator<Item = Record>) -> EventFile {
    records.into_iter().collect()
}

const OBJECT: DeclaredSort = DeclaredSort::Object;
const SUBJECT: DeclaredSort = DeclaredSort::Subject;

fn event(kind: Kind, source: u16, target: u16, time: u32) -> Record {
    Record::Event {
        kind,
        source,
        target,
        time: Time(time),
    }
}

#[test]
fn what_stood_before_is_the_entity_of_that_name() {
    let state = with(
        &empty(),
        Sample::new()
            .object("/a")
            .subject("/bin/x[1];1")
            .read(0, 1, 5),
    );
    assert_eq!(names(&state), "/a\n/bin/x[1]\n");
    let second = Sample::new()
        .subject("/bin/x[2];1")
        .object("/a")
        .object("/b")
        .read(1, 0, 6)
        .write(0, 2, 7);
    let joined = joined(&state, &second.clone().recording("b.slt"));
    let expected = [
        Record::Declaration {
            entity: 2,
            sort: SUBJECT,
        },
        Record::Declaration {
            entity: 3,
            sort: OBJECT,
        },
        event(Kind::Read, 0, 2, 6),
        event(Kind::Write, 2, 3, 7),
    ];
    assert_eq!(joined.file, file(expected));
    assert_eq!(joined.original, [1, 3, 4, 5]);
    assert_eq!(
        names(&with(&state, second)),
        "/a\n/bin/x[1]\n/bin/x[2]\n/b\n"
    );
}

#[test]
fn what_was_made_is_a_new_generation() {
    let first = Sample::new().object("/a").object("/a;1").object("/a;2");
    let state = with(&empty(), first);
    assert_eq!(names(&state), "/a\n/a;2\n/a;3\n");
    let state = with(&state, Sample::new().object("/a;1").object("/a"));
    assert_eq!(names(&state), "/a\n/a;2\n/a;3\n/a;4\n");
    let joined = joined(
        &state,
        &Sample::new().object("/a").sign(0).recording("b.slt"),
    );
    assert_eq!(joined.file, file([Record::Signature { entity: 3 }]));
}

/// One that the recording made is not the one that stood before it.
#[test]
fn what_stood_before_is_looked_for_in_the_trail_before_the_recording() {
    let state = with(&empty(), Sample::new().object("/a"));
    let made_first = Sample::new().object("/a;1").object("/a").sign(1);
    let joined = joined(&state, &made_first.recording("b.slt"));
    let expected = [
        Record::Declaration {
            entity: 1,
            sort: OBJECT,
        },
        Record::Signature { entity: 0 },
    ];
    assert_eq!(joined.file, file(expected));
}

#[test]
fn a_base_that_stands_twice_is_joined_once() {
    let state = with(&empty(), Sample::new().object("/a"));
    let state = with(&state, Sample::new().object("/a").object("/a"));
    assert_eq!(names(&state), "/a\n/a;2\n");
    let state = with(&empty(), Sample::new().object("/a").object("/a"));
    assert_eq!(names(&state), "/a\n/a;2\n");
}

#[test]
fn another_sort_is_another_entity() {
    let state = with(&empty(), Sample::new().object("/a").subject("/b"));
    let state = with(&state, Sample::new().subject("/a").object("/b"));
    assert_eq!(names(&state), "/a\n/b\n/a;2\n/b;2\n");
    assert_eq!(state.trail.entity(EntityNo(2)).unwrap().sort, Sort::Subject);
    let state = with(&state, Sample::new().object("/a"));
    assert_eq!(names(&state), "/a\n/b\n/a;2\n/b;2\n/a;3\n");
}

#[test]
fn a_signed_object_is_an_object() {
    let state = with(&empty(), Sample::new().object("/a").sign(0));
    assert_eq!(
        state.trail.entity(EntityNo(0)).unwrap().sort,
        Sort::SignedObject
    );
    let again = with(
        &state,
        Sample::new()
            .object("/a")
            .subject("/bin/x[1]")
            .read(0, 1, 5),
    );
    assert_eq!(names(&again), "/a\n/bin/x[1]\n");
    let joined = joined(
        &state,
        &Sample::new().object("/a").sign(0).recording("b.slt"),
    );
    assert_eq!(joined.file, file([Record::Signature { entity: 0 }]));
    assert_eq!(joined.original, [2]);
}

#[test]
fn what_has_no_name_is_always_new() {
    let state = with(&empty(), Sample::new().object("").object("").object(";1"));
    let state = with(&state, Sample::new().object("").subject(""));
    assert_eq!(names(&state), "\n\n\n\n\n");
}

#[test]
fn an_escaped_number_is_part_of_the_name() {
    let state = with(&empty(), Sample::new().object(r"/a\;1").object(r"/a\\;1"));
    assert_eq!(names(&state), "/a\\;1\n/a\\\\\n");
    let state = with(
        &state,
        Sample::new()
            .object(r"/a\;1")
            .object(r"/a\\")
            .object(r"/a\\;1"),
    );
    assert_eq!(names(&state), "/a\\;1\n/a\\\\\n/a\\\\;2\n");
}

#[test]
fn times_move_until_one_is_too_late() {
    let sample = Sample::new()
        .object("/a")
        .subject("/x")
        .read(0, 1, 5)
        .read(0, 1, u32::MAX - 1)
        .read(0, 1, u32::MAX);
    let recording = sample.recording("a.slt");
    let joined = join(&empty(), &recording, &lines_for(&recording), Shift(1));
    let expected = [
        Record::Declaration {
            entity: 0,
            sort: OBJECT,
        },
        Record::Declaration {
            entity: 1,
            sort: SUBJECT,
        },
        event(Kind::Read, 0, 1, 6),
        event(Kind::Read, 0, 1, u32::MAX),
    ];
    assert_eq!(joined.file, file(expected));
    assert_eq!(
        joined.too_late,
        Some(TooLate {
            record: 5,
            time: Time(u32::MAX)
        })
    );
}
