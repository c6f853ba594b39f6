use super::run;
use crate::failure::{Exit, Failure};
use crate::folder;
use crate::init;
use crate::recording::sample::Sample;
use crate::take;
use serde_json::json;
use std::ffi::OsString;
use std::fs;
use std::path::{Path, PathBuf};
use tempfile::TempDir;
use trail::{EntityNo, Sort};

fn night() -> (TempDir, PathBuf) {
    let dir = tempfile::tempdir().unwrap();
    let trail = dir.path().join("trail");
    init::run(&trail, None).unwrap();
    let sample = Sample::new()
        .object("/study")
        .subject("/bin/x[1];1")
        .object("/report;1");
    let file = sample
        .read(0, 1, 5)
        .write(1, 2, 6)
        .save(dir.path(), "1.slt");
    take::run(&trail, &[file], false).unwrap();
    (dir, trail)
}

fn sorts(trail: &Path) -> Vec<Sort> {
    folder::read(trail)
        .unwrap()
        .trail
        .entities()
        .map(|(_, row)| row.sort)
        .collect()
}

fn refused(trail: &Path, names: &[&str]) -> Failure {
    let before = fs::read(trail.join("state")).unwrap();
    let names: Vec<OsString> = names.iter().map(OsString::from).collect();
    let failure = run(trail, &names).unwrap_err();
    assert_eq!(fs::read(trail.join("state")).unwrap(), before);
    failure
}

#[test]
fn a_signed_file_takes_no_more_in() {
    let (dir, trail) = night();
    let report = run(&trail, &["/report".into(), "#0".into()]).unwrap();
    assert_eq!(report.text, "/report: signed\n/study: signed\n");
    assert_eq!(report.json["signed"][0]["entity"], json!(2));
    assert_eq!(
        sorts(&trail),
        [Sort::SignedObject, Sort::Subject, Sort::SignedObject]
    );
    let state = folder::read(&trail).unwrap();
    assert_eq!((state.taken.len(), state.trail.counts().accepted), (1, 2));
    let write = Sample::new()
        .subject("/bin/x[2];1")
        .object("/report")
        .write(0, 1, 9)
        .save(dir.path(), "2.slt");
    let failure = take::run(&trail, &[write], false).unwrap().failure.unwrap();
    assert_eq!(
        (failure.exit, &failure.details["refusal"]),
        (Exit::Refused, &json!(17))
    );
}

#[test]
fn all_are_signed_or_none() {
    let (_dir, trail) = night();
    let program = refused(&trail, &["/report", "/bin/x[1]"]);
    assert_eq!(program.exit, Exit::Refused);
    assert_eq!(
        program.message,
        "/bin/x[1]: refused, 8: it is a program, and only files are signed; nothing was signed"
    );
    let twice = refused(&trail, &["/report", "#2"]);
    assert_eq!(
        twice.message,
        "/report: refused, 17: it is signed already, or named twice; nothing was signed"
    );
    assert_eq!(refused(&trail, &["/report", "/none"]).exit, Exit::NotFound);
    run(&trail, &["/report".into()]).unwrap();
    assert_eq!(
        refused(&trail, &["/study", "/report"]).details["refusal"],
        json!(17)
    );
    assert_eq!(
        folder::read(&trail)
            .unwrap()
            .trail
            .entity(EntityNo(0))
            .unwrap()
            .sort,
        Sort::Object
    );
}
