use super::*;
use crate::sample::night;

fn time_of(state: &State, text: &str) -> Result<u32, Exit> {
    let at = At {
        at: Some(text.to_string()),
    };
    time(state, &at)
        .map(|time| time.0)
        .map_err(|failure| failure.exit)
}

#[test]
fn without_a_time_the_last_events() {
    assert_eq!(time(&night().state(), &At { at: None }).unwrap(), Time(500));
}

#[test]
fn digits_are_hundredths() {
    let state = night().state();
    assert_eq!(time_of(&state, "0"), Ok(0));
    assert_eq!(time_of(&state, "0012"), Ok(12));
    assert_eq!(time_of(&state, "4294967295"), Ok(u32::MAX));
    assert_eq!(time_of(&state, "4294967296"), Err(Exit::Usage));
    assert_eq!(time_of(&state, "20261117192045"), Err(Exit::Usage));
}

#[test]
fn moments_count_from_the_start() {
    let state = night().state_with_start();
    assert_eq!(time_of(&state, "2026-11-17T19:20:45.07"), Ok(7));
    assert_eq!(time_of(&state, "2026-11-17 19:21"), Ok(1500));
    assert_eq!(time_of(&state, "2026-11-17"), Ok(0));
    assert_eq!(time_of(&state, "2099-01-01"), Ok(u32::MAX));
}

#[test]
fn a_moment_needs_a_start() {
    assert_eq!(time_of(&night().state(), "2026-11-17"), Err(Exit::Usage));
}

#[test]
fn anything_else_is_no_time() {
    for text in [
        "",
        "-1",
        "+1",
        "1.5",
        "yesterday",
        "2026-11-31",
        "2026-11-17T24:00",
        "١",
    ] {
        assert_eq!(
            time_of(&night().state_with_start(), text),
            Err(Exit::Usage),
            "{text}"
        );
    }
}
