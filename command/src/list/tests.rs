use super::*;
use crate::sample::{night, Sample};

#[test]
fn repeats_are_counted_as_events() {
    let state = night().read(4, 5, 600).read(4, 5, 700).state();
    let text = run(&state, &Choice::default(), false).text;
    let lines: Vec<&str> = text.lines().collect();
    assert_eq!(lines[0], "#   sort     versions  in  out  name");
    assert_eq!(
        lines[5],
        "#4  file            1   1    3  /srv/reports/night-1.txt;2"
    );
    assert_eq!(
        lines[6],
        "#5  program         1   3    0  /usr/bin/viewer[42]"
    );
    let json = run(&state, &Choice::default(), true).json;
    let expected = json!({"entity": 5, "name": "/usr/bin/viewer[42]", "sort": "program", "versions": 1, "in": 3, "out": 0});
    assert_eq!(json[5], expected);
}

#[test]
fn files_or_programs_or_a_pattern() {
    let state = night().state();
    let numbers = |choice: Choice| {
        let json = run(&state, &choice, true).json;
        let entities = json
            .as_array()
            .unwrap()
            .iter()
            .map(|row| row["entity"].as_u64().unwrap());
        entities.collect::<Vec<u64>>()
    };
    let all = Choice::default;
    assert_eq!(
        numbers(Choice {
            files: true,
            ..all()
        }),
        [0, 2, 4, 6]
    );
    assert_eq!(
        numbers(Choice {
            programs: true,
            ..all()
        }),
        [1, 3, 5]
    );
    let only = |pattern: &str| Choice {
        only: Some(pattern.into()),
        ..all()
    };
    assert_eq!(numbers(only("*.txt")), [2, 4]);
    assert_eq!(numbers(only("night-1.txt;2")), [4]);
    assert_eq!(numbers(only("viewer")), [5, 6]);
    assert_eq!(
        numbers(Choice {
            files: true,
            ..only("viewer")
        }),
        [6]
    );
}

#[test]
fn entities_without_a_name_are_listed_by_number() {
    let state = Sample::default().file("").program("").state();
    let text = run(&state, &Choice::default(), false).text;
    assert!(
        text.ends_with("#1  program         1   0    0  #1\n"),
        "{text}"
    );
    let only = Choice {
        only: Some("#1".into()),
        ..Choice::default()
    };
    assert_eq!(
        run(&state, &only, true).json,
        json!([{"entity": 1, "sort": "program", "versions": 1, "in": 0, "out": 0}])
    );
}
