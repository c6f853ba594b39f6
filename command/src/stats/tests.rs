use super::*;
use crate::sample::{night, Sample};

#[test]
fn the_figures_of_a_night() {
    let state = night().read(4, 5, 600).sign(2).state_with_start();
    let text = run(&state, false).text;
    let expected = "events accepted  6\n\
        events kept      5, 1.2 times fewer\n\
        taken in         0 recordings, event files of 0 bytes\n\
        kept log         164 bytes\n\
        entities         7: 4 files (1 signed), 3 programs\n\
        versions         7, 1.00 an entity\n\
        start            2026-11-17T19:20:45.00\n\
        last event       2026-11-17T19:20:51.00\n\n";
    assert!(text.starts_with(expected), "{text}");
    assert!(
        text.contains(
            "\nentities              7          4,096          4,089    0%  about 48 minutes\n"
        ),
        "{text}"
    );
    assert_eq!(state.trail.kept_log().len(), 164);
}

#[test]
fn nothing_can_be_told_of_an_empty_trail() {
    let state = Sample::default().state();
    let report = run(&state, true);
    assert!(report.text.contains("last event       none\n"));
    assert_eq!(report.text.matches("cannot tell yet").count(), 5);
    assert_eq!(report.json["reduction"], Value::Null);
    assert_eq!(report.json["paper"][0]["here"], Value::Null);
    assert_eq!(report.json["tables"][0]["lasts"], Value::Null);
}

#[test]
fn a_table_near_its_end_is_warned_of() {
    let many = (0..3277).fold(Sample::default(), |sample, _| sample.file(""));
    let report = run(&many.state(), false);
    assert!(report.text.contains("\nwarning: entities: 80% used; "));
    assert_eq!(report.json["tables"][0]["warning"], true);
    assert_eq!(report.json["tables"][1]["warning"], false);
}

#[test]
fn the_papers_figures_stand_beside() {
    let report = run(&night().state(), true);
    let rows = report.json["paper"].as_array().unwrap();
    assert_eq!(rows.len(), 5);
    assert_eq!(
        (&rows[0]["here"], &rows[0]["average"]),
        (&json!(1.0), &json!(7.0))
    );
    assert!(report.text.contains("REO*"));
}
