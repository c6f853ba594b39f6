use super::*;
use crate::sample::{night, typed, Sample};
use serde_json::json;

fn answer(state: &State, names: &[&str], time: Option<&str>, json: bool) -> Report {
    let names: Vec<OsString> = names.iter().map(typed).collect();
    let at = At {
        at: time.map(str::to_string),
    };
    run(state, &names, &at, &Choice::default(), json).unwrap()
}

/// A file that is read, written again in place, and read again.
fn written_in_place() -> State {
    Sample::default()
        .file("/srv/a.db")
        .program("/bin/first[1]")
        .program("/bin/writer[2]")
        .program("/bin/second[3]")
        .read(0, 1, 10)
        .write(2, 0, 20)
        .read(0, 3, 30)
        .state()
}

#[test]
fn what_nothing_entered_is_asked_from_the_beginning() {
    let state = night().state_with_start();
    let said = answer(&state, &["studies/night-1.edf"], None, false).text;
    let expected = "/srv/studies/night-1.edf at 2026-11-17T19:20:50.00: \
        since the trail began, as nothing had entered it by then\n\
        it reached 5 entities (2 files, 3 programs)\n\
        file     /srv/reports/night-1.txt\n\
        file     /srv/reports/night-1.txt;2\n\
        program  /usr/bin/stager[40]\n\
        program  /usr/bin/stager[41]\n\
        program  /usr/bin/viewer[42]\n";
    assert_eq!(said, expected);
}

#[test]
fn the_intake_is_said_and_how_to_ask_for_all() {
    let state = written_in_place();
    let now = answer(&state, &["a.db"], None, false).text;
    let expected = "/srv/a.db at 30: from its last kept intake on, at 20\n\
        (all that it ever reached: trail forward --at 0 '#0')\n\
        it reached 1 entity (1 program)\n\
        program  /bin/second[3]\n";
    assert_eq!(now, expected);
    let ever = answer(&state, &["#0"], Some("0"), false).text;
    assert!(ever.ends_with(
        "it reached 2 entities (2 programs)\nprogram  /bin/first[1]\nprogram  /bin/second[3]\n"
    ));
}

#[test]
fn of_several_members_each_and_the_earliest() {
    let state = written_in_place();
    let said = answer(&state, &["a.db", "writer", "#0"], None, false).text;
    let expected = "/srv/a.db at 30: from its last kept intake on, at 20\n\
        /bin/writer[2] at 30: since the trail began, as nothing had entered it by then\n\
        the earliest of these: since the trail began\n\
        (all that they ever reached: with --at 0)\n\
        they reached 2 entities (1 file, 1 program)\n\
        file     /srv/a.db\n\
        program  /bin/second[3]\n";
    assert_eq!(said, expected);
}

#[test]
fn json_has_the_intake_of_each_member_and_the_earliest() {
    let state = written_in_place();
    let said = answer(&state, &["a.db", "second"], None, true).json;
    assert_eq!(
        said,
        json!({
            "members": [
                {"entity": 0, "name": "/srv/a.db", "sort": "file", "intake": 20},
                {"entity": 3, "name": "/bin/second[3]", "sort": "program", "intake": 30},
            ],
            "time": 30,
            "intake": 20,
            "count": 2,
            "reached": [{"entity": 3, "name": "/bin/second[3]", "sort": "program"}],
        })
    );
}

#[test]
fn what_reached_nothing_says_so() {
    let state = written_in_place();
    let said = answer(&state, &["second"], None, false).text;
    assert!(said.ends_with("\nit reached nothing\n"), "{said}");
}
