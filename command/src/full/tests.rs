use crate::failure::{Exit, Failure};
use crate::grow::tests::{add, empty};
use crate::recording::sample::Sample;
use crate::state::State;
use serde_json::json;

fn objects(count: u32) -> Sample {
    (0..count).fold(Sample::new(), |sample, _| sample.object(""))
}

fn full(result: Result<State, Failure>, table: &str, most: u32) -> String {
    let failure = result.unwrap_err();
    assert_eq!(failure.exit, Exit::Full);
    assert_eq!(failure.details["table"], json!(table));
    assert_eq!(failure.details["most"], json!(most));
    failure.message
}

#[test]
fn a_full_trail_stays_and_another_begins() {
    let state = add(&empty(), &objects(4096).recording("1.slt")).unwrap();
    let refused = add(&state, &objects(1).recording("2.slt"));
    let said = full(refused, "entities", 4096);
    let first = said.lines().next().unwrap();
    assert!(
        first.starts_with("2.slt: record 1 (byte 8): refused, 10: "),
        "{said}"
    );
    assert!(
        said.contains("4,096 entities") && said.contains("Begin a new trail"),
        "{said}"
    );
    assert!(said.contains("all are in use"), "{said}");
    let no_events = Sample::new().recording("3.slt");
    assert!(add(&state, &no_events).is_ok());
}

#[test]
fn a_recording_larger_than_what_is_left_says_how_many_are_left() {
    let state = add(&empty(), &objects(4000).recording("1.slt")).unwrap();
    let said = full(
        add(&state, &objects(97).recording("2.slt")),
        "entities",
        4096,
    );
    assert!(
        said.contains("96 are left, and this recording needs more"),
        "{said}"
    );
    assert!(add(&state, &objects(96).recording("2.slt")).is_ok());
}

#[test]
fn a_recording_too_large_for_any_trail_is_told_from_a_full_one() {
    let mut recording = objects(4097).recording("1.slt");
    let said = full(add(&empty(), &recording), "entities", 4096);
    assert!(
        said.contains("The recording alone has more than 4,096 entities"),
        "{said}"
    );
    recording.names = None;
    assert_eq!(full(add(&empty(), &recording), "entities", 4096), said);
}

#[test]
fn when_the_events_are_too_many_the_kept_log_makes_room() {
    let sample = Sample::new().object("/a").subject("/x[1];1");
    let sample = (1..=1_000_000).fold(sample, |sample, time| sample.read(0, 1, time));
    let state = add(&empty(), &sample.recording("1.slt")).unwrap();
    assert_eq!(state.trail.counts().accepted, 1_000_000);
    let more = Sample::new()
        .object("/a")
        .subject("/x[1]")
        .read(0, 1, 1_000_001);
    let refused = add(&state, &more.recording("2.slt"));
    let said = full(refused, "accepted events", 1_000_000);
    assert!(
        said.contains("`trail log OUT.slt`") && said.contains("999,999 more go in"),
        "{said}"
    );
}
