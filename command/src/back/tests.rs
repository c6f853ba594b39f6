use super::*;
use crate::sample::{night, typed, Sample};
use serde_json::json;

fn at(time: Option<&str>) -> At {
    At {
        at: time.map(str::to_string),
    }
}

fn text(state: &State, name: &str, time: Option<&str>, choice: Choice) -> String {
    run(state, &typed(name), &at(time), &choice, false)
        .unwrap()
        .text
}

#[test]
fn files_then_programs_stand_behind_a_report() {
    let state = night().state_with_start();
    let said = text(&state, "night-1.txt", None, Choice::default());
    let expected = "/srv/reports/night-1.txt;2, the latest of 2, at 2026-11-17T19:20:50.00: \
        2 entities stand behind it (1 file, 1 program)\n\
        file     /srv/studies/night-1.edf\n\
        program  /usr/bin/stager[41]\n";
    assert_eq!(said, expected);
}

#[test]
fn an_earlier_time_means_an_earlier_report() {
    let state = night().state();
    let said = text(&state, "night-1.txt", Some("250"), Choice::default());
    assert!(
        said.starts_with("/srv/reports/night-1.txt, number 1 of 2, at 250: 2 entities stand"),
        "{said}"
    );
    assert!(said.ends_with("program  /usr/bin/stager[40]\n"));
}

#[test]
fn only_some_are_shown() {
    let state = night().state();
    let programs = Choice {
        programs: true,
        ..Choice::default()
    };
    let said = text(&state, "night-1.txt;1", None, programs);
    let expected = "/srv/reports/night-1.txt at 500: \
        2 entities stand behind it (1 file, 1 program); 1 of them shown\n\
        program  /usr/bin/stager[40]\n";
    assert_eq!(said, expected);
    let only = Choice {
        only: Some(typed("stager")),
        ..Choice::default()
    };
    assert!(text(&state, "night-1.txt;1", None, only)
        .ends_with("shown\nprogram  /usr/bin/stager[40]\n"));
}

#[test]
fn nothing_or_one_stands_behind() {
    let state = night().state();
    let nothing = text(&state, "night-1.edf", None, Choice::default());
    assert_eq!(
        nothing,
        "/srv/studies/night-1.edf at 500: nothing stands behind it\n"
    );
    let one = text(&state, "stager[40]", None, Choice::default());
    assert!(
        one.contains(": 1 entity stands behind it (1 file)\n"),
        "{one}"
    );
}

#[test]
fn the_entity_counts_itself_in_json_and_is_not_listed() {
    let state = night().sign(4).state_with_start();
    let report = run(
        &state,
        &typed("viewer[42]"),
        &at(None),
        &Choice::default(),
        true,
    )
    .unwrap();
    assert_eq!(
        report.json,
        json!({
            "entity": {"entity": 5, "name": "/usr/bin/viewer[42]", "sort": "program"},
            "time": 500,
            "moment": "2026-11-17T19:20:50.00",
            "count": 4,
            "behind": [
                {"entity": 4, "name": "/srv/reports/night-1.txt;2", "sort": "signed file"},
                {"entity": 0, "name": "/srv/studies/night-1.edf", "sort": "file"},
                {"entity": 3, "name": "/usr/bin/stager[41]", "sort": "program"},
            ],
        })
    );
}

#[test]
fn an_empty_trail_has_nothing_to_ask_about() {
    let state = Sample::default().state();
    let failure = run(&state, &typed("#0"), &at(None), &Choice::default(), false).unwrap_err();
    assert_eq!(failure.exit as u8, 1);
}
