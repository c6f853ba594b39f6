use super::grow;
use crate::failure::{Exit, Failure};
use crate::moment::Moment;
use crate::recording::sample::Sample;
use crate::recording::Recording;
use crate::state::State;
use trail::{EdgeNo, Time, Trail};

pub fn add(state: &State, recording: &Recording) -> Result<State, Failure> {
    grow(state, &Trail::new().unwrap(), recording, recording.digest())
}

pub fn empty() -> State {
    State::empty(None).unwrap()
}

pub fn starting_at(start: &str) -> State {
    State::empty(Moment::parse(start)).unwrap()
}

/// A study read by a program that writes a report.
pub fn night(program: &str, times: [u32; 2]) -> Sample {
    let sample = Sample::new()
        .object("/study")
        .subject(program)
        .object("/report;1");
    sample.read(0, 1, times[0]).write(1, 2, times[1])
}

#[test]
fn recordings_add_up() {
    let first = add(&empty(), &night("/x[1];1", [5, 6]).recording("1.slt")).unwrap();
    let second = add(&first, &night("/x[2];1", [7, 8]).recording("2.slt")).unwrap();
    assert_eq!(
        second.names.text(),
        b"/study\n/x[1]\n/report\n/x[2]\n/report;2\n"
    );
    let counts = second.trail.counts();
    assert_eq!((counts.entities, counts.edges), (5, 4));
    assert_eq!((counts.accepted, counts.last), (4, Time(8)));
    let taken = second.taken.iter();
    let taken: Vec<_> = taken
        .map(|file| (&file.name[..], file.records, file.events))
        .collect();
    assert_eq!(taken, [(&b"1.slt"[..], 5, 2), (b"2.slt", 5, 2)]);
}

#[test]
fn the_first_start_is_the_trails_and_later_times_move_to_it() {
    let first = night("/x[1];1", [5, 6]).start("2026-11-17T19:20:45.12");
    let state = add(&empty(), &first.recording("1.slt")).unwrap();
    assert_eq!(state.start, Moment::parse("2026-11-17T19:20:45.12"));
    let second = night("/x[2];1", [5, 6]).start("2026-11-17T19:20:46.00");
    let state = add(&state, &second.recording("2.slt")).unwrap();
    assert_eq!(state.start, Moment::parse("2026-11-17T19:20:45.12"));
    assert_eq!(state.trail.edge(EdgeNo(2)).unwrap().time, Time(88 + 5));
    assert_eq!(state.trail.counts().last, Time(88 + 6));
}

#[test]
fn times_move_without_names_too() {
    let state = starting_at("2026-11-17");
    let sample = Sample::without_names().object("").subject("").read(0, 1, 5);
    let state = add(
        &state,
        &sample.start("2026-11-18T00:00:00.00").recording("1.slt"),
    )
    .unwrap();
    assert_eq!(state.trail.counts().last, Time(8_640_000 + 5));
}

#[test]
fn a_recording_without_a_start_has_the_trails_own_times() {
    let state = add(
        &starting_at("2026-11-17"),
        &night("/x[1];1", [5, 6]).recording("1.slt"),
    )
    .unwrap();
    assert_eq!(state.trail.counts().last, Time(6));
    assert_eq!(state.start, Moment::parse("2026-11-17"));
}

#[test]
fn a_recording_may_begin_before_the_trail_if_its_events_come_after() {
    let state = starting_at("2026-11-17T19:20:45.12");
    let sample = night("/x[1];1", [113, 114]).start("2026-11-17T19:20:44.00");
    let state = add(&state, &sample.recording("1.slt")).unwrap();
    assert_eq!(state.trail.edge(EdgeNo(0)).unwrap().time, Time(1));
}

#[test]
fn a_start_needs_a_trail_with_one() {
    let state = add(&empty(), &night("/x[1];1", [5, 6]).recording("1.slt")).unwrap();
    let sample = night("/x[2];1", [7, 8]).start("2026-11-17T19:20:45.12");
    let with_start = sample.recording("2.slt");
    let failure = add(&state, &with_start).unwrap_err();
    assert_eq!(failure.exit, Exit::Refused);
    assert_eq!(
        failure.message,
        "2.slt: it has a start (2.start), and the trail has records but no start"
    );
    let nothing = Sample::new().recording("0.slt");
    let state = add(&empty(), &nothing).unwrap();
    assert!(add(&state, &with_start).unwrap().start.is_some());
}

#[test]
fn without_names_the_numbers_are_the_trails_own() {
    let first = Sample::without_names().object("").subject("").read(0, 1, 5);
    let state = add(&empty(), &first.recording("1.slt")).unwrap();
    assert_eq!(state.names.text(), b"\n\n");
    let more = Sample::without_names().read(0, 1, 6).recording("2.slt");
    let state = add(&state, &more).unwrap();
    assert_eq!(state.trail.counts().accepted, 2);
    let named = add(&state, &night("/x[1];1", [7, 8]).recording("3.slt")).unwrap();
    assert_eq!(named.names.text(), b"\n\n/study\n/x[1]\n/report\n");
}
