use crate::failure::{Exit, Failure};
use crate::grow::tests::{add, empty, night, starting_at};
use crate::recording::sample::Sample;
use crate::state::State;
use serde_json::json;
use trail::{DeclaredSort, Kind, Record, Refusal};

fn message(result: Result<State, Failure>, exit: Exit) -> String {
    let failure = result.unwrap_err();
    assert_eq!(failure.exit, exit, "{}", failure.message);
    failure.message
}

/// What is said of a record that is refused.
fn said(file: &str, record: usize, refusal: Refusal, more: &str) -> String {
    format!(
        "{file}: record {record} (byte {}): refused, {refusal}{more}",
        12 * record - 4
    )
}

#[test]
fn a_recording_older_than_the_trail_is_refused_in_its_own_numbers() {
    let first = night("/x[1];1", [500, 600]).start("2026-11-17T19:20:45.12");
    let state = add(&empty(), &first.recording("1.slt")).unwrap();
    let second = night("/x[2];1", [500, 600]).start("2026-11-17T19:20:45.12");
    let failure = add(&state, &second.recording("2.slt")).unwrap_err();
    assert_eq!(
        failure.message,
        "2.slt: record 4 (byte 44): refused, 9: older than the trail: the event is at 2026-11-17T19:20:50.12, \
         the trail's last is at 2026-11-17T19:20:51.12"
    );
    for (key, value) in [("refusal", 9), ("record", 4), ("byte", 44)] {
        assert_eq!(failure.details[key], json!(value), "{key}");
    }
}

#[test]
fn a_recording_older_than_the_trails_start_is_refused() {
    let early = night("/x[1];1", [112, 114]).start("2026-11-17T19:20:44.00");
    let state = starting_at("2026-11-17T19:20:45.12");
    assert_eq!(
        message(add(&state, &early.recording("1.slt")), Exit::Refused),
        "1.slt: record 4 (byte 44): refused, 9: older than the trail: the event is at 2026-11-17T19:20:45.12, \
         the trail starts at 2026-11-17T19:20:45.12"
    );
}

#[test]
fn a_fault_of_the_recording_itself_is_told_from_one_against_the_trail() {
    let state = add(&empty(), &night("/x[1];1", [5, 6]).recording("1.slt")).unwrap();
    let falling = night("/x[2];1", [9, 8]).recording("2.slt");
    let expected = said("2.slt", 5, Refusal::TooEarly, ": the event is at 8");
    assert_eq!(message(add(&state, &falling), Exit::Refused), expected);
    let no_names = Sample::without_names().read(0, 1, 9).read(0, 1, 8);
    let expected = said("2.slt", 2, Refusal::TooEarly, ": the event is at 8");
    let refused = add(&state, &no_names.recording("2.slt"));
    assert_eq!(message(refused, Exit::Refused), expected);
}

/// Time 0 stays time 0, however far the recording's start lies after the trail's.
#[test]
fn time_0_does_not_move() {
    let zero = Sample::without_names().object("").subject("").read(0, 1, 0);
    let recording = zero.start("2026-11-18T00:00:00.00").recording("a.slt");
    let expected = said(
        "a.slt",
        3,
        Refusal::TooEarly,
        ": the event is at 2026-11-18T00:00:00.00",
    );
    assert_eq!(
        message(add(&starting_at("2026-11-17"), &recording), Exit::Refused),
        expected
    );
}

#[test]
fn entities_are_said_by_their_names() {
    let undeclared = night("/x[2];1", [7, 8]).read(0, 9, 9).recording("2.slt");
    let expected = said(
        "2.slt",
        6,
        Refusal::Undeclared,
        ": read from /study to #9 at 9",
    );
    assert_eq!(message(add(&empty(), &undeclared), Exit::Refused), expected);
    let sorts = Sample::new()
        .object("/a")
        .object("/b")
        .event(Kind::Read, 0, 1, 5);
    let expected = said("1.slt", 3, Refusal::WrongSort, ": read from /a to /b at 5");
    assert_eq!(
        message(add(&empty(), &sorts.recording("1.slt")), Exit::Refused),
        expected
    );
    let state = add(&empty(), &night("/x[1];1", [5, 6]).recording("1.slt")).unwrap();
    let no_names = Sample::without_names().write(0, 2, 9).recording("2.slt");
    let expected = said(
        "2.slt",
        1,
        Refusal::WrongSort,
        ": write from /study to /report at 9",
    );
    assert_eq!(message(add(&state, &no_names), Exit::Refused), expected);
}

#[test]
fn a_write_into_a_signed_file_is_refused() {
    let signed = Sample::new().object("/report").sign(0);
    let state = add(&empty(), &signed.recording("1.slt")).unwrap();
    let sample = Sample::new()
        .subject("/x[1];1")
        .object("/other;1")
        .object("/report");
    let write = sample.write(0, 1, 4).write(0, 2, 5).recording("2.slt");
    let expected = said(
        "2.slt",
        5,
        Refusal::Signed,
        ": write from /x[1];1 to /report at 5",
    );
    assert_eq!(message(add(&state, &write), Exit::Refused), expected);
    let again = Sample::new()
        .object("")
        .object("/report")
        .sign(1)
        .recording("3.slt");
    let expected = said("3.slt", 3, Refusal::Signed, ": signature of /report");
    assert_eq!(message(add(&state, &again), Exit::Refused), expected);
}

#[test]
fn numbers_that_meet_those_of_the_trail_ask_for_names() {
    let sample = Sample::without_names().object("").subject("").read(0, 1, 5);
    let state = add(&empty(), &sample.clone().recording("1.slt")).unwrap();
    let expected = said(
        "2.slt",
        1,
        Refusal::NotNext,
        ": it declares entity 0, and the next is 2\n\
         Without 2.names the file's numbers are the trail's own; with it beside the file, the two are joined by names.",
    );
    assert_eq!(
        message(add(&state, &sample.recording("2.slt")), Exit::Refused),
        expected
    );
}

#[test]
fn a_recording_with_names_that_skips_a_number_does_not_ask_for_them() {
    let mut recording = Sample::new().object("/a").recording("1.slt");
    let skips = Record::Declaration {
        entity: 5,
        sort: DeclaredSort::Object,
    };
    recording.file.extend(skips.encode());
    let expected = said(
        "1.slt",
        2,
        Refusal::NotNext,
        ": it declares entity 5, and the next is 1",
    );
    assert_eq!(message(add(&empty(), &recording), Exit::Refused), expected);
}

#[test]
fn what_is_no_event_file_is_refused_before_any_record() {
    let mut recording = Sample::without_names().recording("1.slt");
    recording.file = b"hello".to_vec();
    let expected = format!("1.slt: refused, {}", Refusal::NotEventFile);
    assert_eq!(message(add(&empty(), &recording), Exit::Refused), expected);
    recording.names = Some(Vec::new());
    assert_eq!(message(add(&empty(), &recording), Exit::Refused), expected);
    let mut cut = night("/x[1];1", [5, 6]).recording("1.slt");
    cut.file.pop();
    let expected = said("1.slt", 5, Refusal::CutShort, "");
    assert_eq!(message(add(&empty(), &cut), Exit::Refused), expected);
}

#[test]
fn times_end_497_days_after_the_start() {
    let state = starting_at("2026-11-17");
    let sample = night("/x[1];1", [5, 6]).start("2028-11-17T00:00:00.00");
    let recording = sample.recording("1.slt");
    let expected = "1.slt: record 4 (byte 44): full: more than 497 days after the trail's start, where its times end: \
                    the event is at 2028-11-17T00:00:00.05, the trail starts at 2026-11-17T00:00:00.00\n\
                    The trail and its answers stay as they are. Begin a new one for what comes.";
    assert_eq!(message(add(&state, &recording), Exit::Full), expected);
    let mut bare = recording.clone();
    bare.names = None;
    assert_eq!(message(add(&state, &bare), Exit::Full), expected);
}
