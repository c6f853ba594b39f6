//! Arguments that are wrong, trails and names that are not there, names that fit several entities.

use crate::common::answers::named;
use crate::common::folder::Folder;
use crate::common::recording::{worked, Recording};
use crate::common::recordings::START;
use crate::common::run::{program, run, DONE, NOT_FOUND, TRAIL, USAGE};
use serde_json::Value;

const WRONG: [&[&str]; 14] = [
    &[],
    &["unknown"],
    &["take"],
    &["take", "--remove"],
    &["back"],
    &["back", "one", "two"],
    &["forward"],
    &["list", "--files", "--programs"],
    &["list", "--unknown"],
    &["sign"],
    &["log"],
    &["completions", "dosbox"],
    &["check", "extra"],
    &["back", "report", "--at"],
];

#[test]
fn wrong_arguments() {
    let folder = Folder::with(&worked());
    let before = folder.contents();
    for arguments in WRONG {
        let ended = folder.run(arguments).expect(USAGE);
        assert!(
            ended.out.is_empty() && !ended.err.is_empty(),
            "{arguments:?}: {ended:?}"
        );
        folder.json(arguments).expect(USAGE).error();
    }
    assert!(folder.contents() == before);
}

#[test]
fn help_and_version() {
    let folder = Folder::empty();
    for arguments in [
        &["--help"][..],
        &["--version"],
        &["help"],
        &["take", "--help"],
        &["help", "take"],
    ] {
        let ended = folder.run(arguments).expect(DONE);
        assert!(!ended.out.is_empty() && ended.err.is_empty());
    }
    for shell in ["bash", "elvish", "fish", "powershell", "zsh"] {
        let ended = folder.run(["completions", shell]).expect(DONE);
        assert!(ended.out_text().contains("forward"), "{shell}");
    }
}

#[test]
fn no_trail_there() {
    let folder = Folder::empty();
    folder.put(&worked(), "night");
    for call in [
        &["take", "night.slt"][..],
        &["take", "--remove", "night.slt"],
        &["back", "report"],
        &["forward", "report"],
        &["list"],
        &["stats"],
        &["sign", "report"],
        &["log", "kept.slt"],
        &["check"],
        &["check", "--deep"],
    ] {
        let before = folder.contents();
        folder.run(call).expect(NOT_FOUND).says(&["trail"]);
        folder.json(call).expect(NOT_FOUND).error();
        assert!(
            folder.contents() == before && !folder.trail().exists(),
            "{call:?} made something"
        );
    }
}

/// A second `init` leaves the trail as it is.
#[test]
fn a_trail_is_made_once() {
    let folder = Folder::with(&worked());
    let before = folder.contents();
    let ended = folder.run(["init"]);
    assert!(ended.code() != DONE, "{ended:?}");
    folder.json(["init", "--start", START]).error();
    assert!(folder.contents() == before);
}

#[test]
fn the_folder_is_given_or_in_a_variable_or_the_usual_one() {
    let folder = Folder::empty();
    let command = |arguments: &[&str], variable: Option<&str>| {
        let mut command = program(TRAIL);
        command.args(arguments).current_dir(folder.path());
        variable.map(|value| command.env("TRAIL_DIR", value));
        run(&mut command)
    };
    command(&["init"], None).expect(DONE);
    assert!(folder.join(".trail/state").exists());
    command(&["init"], Some("other")).expect(DONE);
    assert!(folder.join("other/state").exists());
    command(&["-t", "third", "init"], Some("other")).expect(DONE);
    assert!(folder.join("third/state").exists());
    command(&["init", "--trail", "fourth"], None).expect(DONE);
    assert!(folder.join("fourth/state").exists());
}

#[test]
fn a_name_that_nothing_has() {
    let folder = Folder::with(&worked());
    for call in [
        &["back", "nothing"][..],
        &["forward", "report", "nothing"],
        &["sign", "nothing"],
        &["back", "#4"],
        &["back", "#99999999999"],
    ] {
        folder
            .run(call)
            .expect(NOT_FOUND)
            .says(&[call[call.len() - 1]]);
        folder.json(call).expect(NOT_FOUND).error();
    }
    // One that others contain: they are listed.
    folder
        .run(["back", "repor"])
        .expect(NOT_FOUND)
        .says(&["/data/report"]);
}

#[test]
fn a_name_that_several_entities_have() {
    let mut recording = Recording::at(START);
    let program = recording.subject("/bin/stager[7]");
    for folder in 0..25 {
        let object = recording.object(format!("/data/{folder:02}/report"));
        recording.write(program, object, 1);
    }
    recording.subject("/usr/bin/stager[8]");
    recording.object("/data/23/report/inner");
    let folder = Folder::with(&recording);
    let before = folder.state();
    for call in ["back", "forward", "sign"] {
        let ended = folder.run([call, "report"]).expect(NOT_FOUND);
        ended.says(&["/data/00/report", "5 more"]);
        let listed = ended.err_text().matches("/report").count();
        assert!(
            (20..=21).contains(&listed),
            "{listed} listed: {}",
            ended.err_text()
        );
        let error = folder.json([call, "report"]).expect(NOT_FOUND).error();
        let candidates = error["candidates"].as_array().unwrap();
        assert_eq!(candidates.len(), 20, "{error}");
        assert!(candidates
            .iter()
            .all(|candidate| candidate["entity"].is_u64() && candidate["name"].is_string()));
    }
    assert!(folder.state() == before);
    folder
        .run(["back", "stager"])
        .expect(NOT_FOUND)
        .says(&["/bin/stager[7]", "/usr/bin/stager[8]"]);
    assert_eq!(folder.names_behind("07/report").len(), 2);
    assert_eq!(folder.names_behind("/bin/stager").len(), 1);
    assert_eq!(folder.names_behind("/data/23/report").len(), 2);
}

#[test]
fn the_choice_of_what_is_shown() {
    let folder = Folder::with(&worked());
    let shown = |choice: &[&str]| {
        let mut arguments = vec!["back", "report"];
        arguments.extend(choice);
        let answer = folder.json(arguments).expect(DONE).json();
        assert_eq!(answer["count"], 4, "all are counted");
        let names = named(answer["behind"].as_array().unwrap())
            .into_values()
            .flatten();
        let mut texts: Vec<String> = names.map(|name| String::from_utf8(name).unwrap()).collect();
        texts.sort();
        texts
    };
    assert_eq!(shown(&["--files"]), ["/data/montage", "/data/study"]);
    assert_eq!(shown(&["--programs"]), ["/bin/stager[7]"]);
    assert_eq!(shown(&["--only", "*t*y"]), ["/data/study"]);
    assert_eq!(shown(&["--only", "/data/*"]).len(), 2);
    assert_eq!(shown(&["--only", "????y"]), ["/data/study"]);
    assert_eq!(shown(&["--only", "stud"]), [""; 0]);
    assert_eq!(shown(&[]).len(), 3);
}

/// With `--json` there is one value, whatever is asked.
#[test]
fn each_answer_in_json() {
    let folder = Folder::with(&worked());
    for call in [
        &["list"][..],
        &["stats"],
        &["stats", "--paper"],
        &["check"],
        &["check", "--deep"],
        &["back", "report"],
        &["forward", "study", "montage"],
        &["take", "first.slt"],
        &["log", "kept.slt"],
        &["sign", "report"],
    ] {
        let run = folder.json(call).expect(DONE);
        let value: Value = run.json();
        assert!(value.get("error").is_none(), "{call:?}: {value}");
        assert!(run.err.is_empty(), "{call:?}: {}", run.err_text());
    }
    let empty = Folder::empty();
    assert!(empty.json(["init"]).expect(DONE).json().is_object());
}
