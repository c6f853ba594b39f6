use super::*;
use crate::sample::{night, typed, Sample};
use serde_json::json;

fn number(state: &State, name: impl AsRef<[u8]>, at: u32) -> u32 {
    entity(state, &typed(name), Time(at)).unwrap().0
}

fn failure(state: &State, name: impl AsRef<[u8]>) -> Failure {
    entity(state, &typed(name), Time(1000)).unwrap_err()
}

#[test]
fn a_whole_name_or_its_end_after_a_slash() {
    let state = night().state();
    for name in [
        "/srv/studies/night-1.edf",
        "night-1.edf",
        "studies/night-1.edf",
        "./studies/night-1.edf",
        "#0",
    ] {
        assert_eq!(number(&state, name, 1000), 0, "{name}");
    }
    for name in [
        "ight-1.edf",
        "/night-1.edf",
        "night-1.edf/",
        "",
        "#7",
        "#99999999999",
        "#",
    ] {
        assert_eq!(failure(&state, name).exit, Exit::NotFound, "{name}");
    }
}

#[test]
fn of_several_generations_the_latest_by_then() {
    let state = night().state();
    let report = "reports/night-1.txt";
    assert_eq!(number(&state, report, 1000), 4);
    assert_eq!(number(&state, report, 400), 4);
    assert_eq!(number(&state, report, 399), 2);
    assert_eq!(number(&state, report, 0), 4);
    let found = find(&state, &typed(report), Time(399)).unwrap();
    assert_eq!(found.generation, Some((1, 2)));
}

#[test]
fn a_generation_by_its_number() {
    let state = night().state();
    assert_eq!(number(&state, "night-1.txt;1", 1000), 2);
    assert_eq!(number(&state, "/srv/reports/night-1.txt;2", 0), 4);
    assert_eq!(number(&state, "night-1.edf;1", 0), 0);
    for name in [
        "night-1.txt;3",
        "night-1.txt;0",
        "night-1.txt;01",
        "night-1.txt;99999999999999999999",
    ] {
        assert_eq!(failure(&state, name).exit, Exit::NotFound, "{name}");
    }
    let found = find(&state, &typed("night-1.txt;1"), Time(0)).unwrap();
    assert_eq!(found.generation, None);
}

#[test]
fn a_program_without_its_pid() {
    let state = night().state();
    assert_eq!(number(&state, "stager[41]", 1000), 3);
    // The file of that whole name comes before the program.
    assert_eq!(number(&state, "/usr/bin/viewer", 1000), 6);
    let failure = failure(&state, "stager");
    assert_eq!(failure.exit, Exit::NotFound);
    assert_eq!(
        failure.details["candidates"],
        json!([
            {"entity": 1, "name": "/usr/bin/stager[40]", "sort": "program"},
            {"entity": 3, "name": "/usr/bin/stager[41]", "sort": "program"},
        ])
    );
    let one = Sample::default().program("/usr/bin/stager[40]").state();
    assert_eq!(number(&one, "stager", 1000), 0);
    assert_eq!(number(&one, "/usr/bin/stager", 1000), 0);
}

#[test]
fn only_a_program_has_a_pid() {
    let state = Sample::default().file("/srv/a[1]").state();
    assert_eq!(failure(&state, "a").exit, Exit::NotFound);
    assert_eq!(number(&state, "a[1]", 1000), 0);
}

#[test]
fn ambiguous_names_list_their_candidates() {
    let failure = failure(&night().state(), "viewer");
    let lines: Vec<&str> = failure.message.lines().collect();
    assert_eq!(
        lines[1..],
        [
            "  file     /usr/bin/viewer",
            "  program  /usr/bin/viewer[42]"
        ]
    );

    let many = (0..25).fold(Sample::default(), |sample, i| {
        sample.file(format!("/{i:02}/a.txt"))
    });
    let failure = super::entity(&many.state(), &typed("a.txt"), Time(0)).unwrap_err();
    assert_eq!(failure.message.lines().count(), 22);
    assert!(failure
        .message
        .ends_with("  file     /19/a.txt\n  and 5 more"));
    assert_eq!(failure.details["more"], 5);
    assert_eq!(failure.details["candidates"].as_array().unwrap().len(), 20);
}

#[test]
fn a_candidate_is_the_generation_by_then() {
    let state = night().program("/opt/night-1.txt").state();
    let candidate = |at: u32| {
        let failure = entity(&state, &typed("night-1.txt"), Time(at)).unwrap_err();
        failure.details["candidates"][0]["entity"].clone()
    };
    assert_eq!(candidate(399), 2);
    assert_eq!(candidate(400), 4);
}

#[test]
fn similar_names_are_listed() {
    let failure = failure(&night().state(), "/home/STUDIES/NIGHT-1");
    assert_eq!(failure.details["similar"].as_array().unwrap().len(), 3);
    assert!(failure
        .message
        .contains("similar:\n  file     /srv/reports/night-1.txt\n"));
}

#[test]
fn names_of_any_bytes() {
    let state = Sample::default()
        .file(b"/srv/caf\xe9.txt")
        .file("/srv/a\\;2")
        .file("/srv/a\\\\n\\n")
        .file("/srv/\u{202e}b")
        .state();
    assert_eq!(number(&state, b"caf\xe9.txt", 0), 0);
    assert_eq!(number(&state, "caf\\xe9.txt", 0), 0);
    assert_eq!(number(&state, "a;2", 0), 1);
    assert_eq!(number(&state, "a\\;2", 0), 1);
    assert_eq!(number(&state, "a\\n\n", 0), 2);
    assert_eq!(number(&state, "\\xe2\\x80\\xaeb", 0), 3);
}

#[test]
fn a_name_as_it_stands_comes_before_a_path_that_is_escaped_so() {
    let state = Sample::default()
        .file("/srv/a\\;2")
        .file("/srv/a\\\\\\;2")
        .state();
    assert_eq!(number(&state, "/srv/a\\;2", 0), 0);
    assert_eq!(number(&state, "a\\;2", 0), 0);
    assert_eq!(number(&state, "a\\\\\\;2", 0), 1);
}

#[test]
fn entities_without_a_name_have_a_number() {
    let state = Sample::default().file("").program("").state();
    assert_eq!(number(&state, "#1", 0), 1);
    assert_eq!(failure(&state, "").exit, Exit::NotFound);
}
