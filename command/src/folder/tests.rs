use super::{read, Writer, LOCK, NEW, STATE};
use crate::failure::{Exit, Failure};
use crate::moment::Moment;
use crate::state::State;
use std::fs::{self, File, Permissions};
use std::os::unix::fs::PermissionsExt;
use std::path::Path;

fn make(dir: &Path) -> Result<(), Failure> {
    let writer = Writer::make(dir)?;
    writer.commit(&State::empty(None).unwrap())
}

fn exit<T>(result: Result<T, Failure>) -> Exit {
    result.err().expect("it fails").exit
}

fn at_start() -> State {
    State::empty(Moment::parse("2026-11-17")).unwrap()
}

#[test]
fn a_folder_without_a_trail_is_left_alone() {
    let dir = tempfile::tempdir().unwrap();
    assert_eq!(exit(read(dir.path())), Exit::NotFound);
    assert_eq!(exit(Writer::open(dir.path())), Exit::NotFound);
    assert_eq!(exit(read(&dir.path().join("none"))), Exit::NotFound);
    assert_eq!(exit(Writer::open(&dir.path().join("none"))), Exit::NotFound);
    assert_eq!(fs::read_dir(dir.path()).unwrap().count(), 0);
    fs::write(dir.path().join("file"), "x").unwrap();
    assert_eq!(exit(read(&dir.path().join("file"))), Exit::NotFound);
    assert_eq!(exit(make(&dir.path().join("file"))), Exit::InputOutput);
}

#[test]
fn a_trail_is_made_once_with_the_folders_above() {
    let dir = tempfile::tempdir().unwrap();
    let deep = dir.path().join("a/b/c");
    make(&deep).unwrap();
    assert!(read(&deep).is_ok());
    let before = fs::read(deep.join(STATE)).unwrap();
    assert_eq!(exit(make(&deep)), Exit::Usage);
    assert_eq!(fs::read(deep.join(STATE)).unwrap(), before);
}

#[test]
fn one_writer_at_a_time_and_readers_at_any() {
    let dir = tempfile::tempdir().unwrap();
    let writer = Writer::make(dir.path()).unwrap();
    assert_eq!(exit(Writer::make(dir.path())), Exit::AnotherWriter);
    writer.commit(&State::empty(None).unwrap()).unwrap();
    assert_eq!(exit(Writer::open(dir.path())), Exit::AnotherWriter);
    assert_eq!(exit(Writer::make(dir.path())), Exit::Usage);
    assert!(read(dir.path()).unwrap().start.is_none());
    writer.commit(&at_start()).unwrap();
    assert!(read(dir.path()).unwrap().start.is_some());
    drop(writer);
    assert!(Writer::open(dir.path()).is_ok());
}

#[test]
fn a_commit_keeps_the_mode_and_leaves_no_other_file() {
    let dir = tempfile::tempdir().unwrap();
    make(dir.path()).unwrap();
    fs::set_permissions(dir.path().join(STATE), Permissions::from_mode(0o440)).unwrap();
    fs::write(dir.path().join(NEW), "left half written").unwrap();
    fs::set_permissions(dir.path().join(NEW), Permissions::from_mode(0o400)).unwrap();
    let writer = Writer::open(dir.path()).unwrap();
    writer.commit(&at_start()).unwrap();
    let mode = fs::metadata(dir.path().join(STATE))
        .unwrap()
        .permissions()
        .mode();
    assert_eq!(mode & 0o777, 0o440);
    let mut names: Vec<_> = fs::read_dir(dir.path())
        .unwrap()
        .map(|entry| entry.unwrap().file_name())
        .collect();
    names.sort();
    assert_eq!(names, [LOCK, STATE]);
}

#[test]
fn a_commit_that_fails_leaves_the_state_as_it_was() {
    let dir = tempfile::tempdir().unwrap();
    make(dir.path()).unwrap();
    let before = fs::read(dir.path().join(STATE)).unwrap();
    fs::create_dir(dir.path().join(NEW)).unwrap();
    let writer = Writer::open(dir.path()).unwrap();
    let failure = writer.commit(&at_start()).unwrap_err();
    assert_eq!(failure.exit, Exit::InputOutput);
    assert!(
        failure.message.contains("stays as it was"),
        "{}",
        failure.message
    );
    assert_eq!(fs::read(dir.path().join(STATE)).unwrap(), before);
}

#[test]
fn damage_is_said_and_nothing_written() {
    let dir = tempfile::tempdir().unwrap();
    make(dir.path()).unwrap();
    let state = dir.path().join(STATE);
    let mut bytes = fs::read(&state).unwrap();
    bytes[30] ^= 1;
    fs::write(&state, &bytes[..]).unwrap();
    let failure = read(dir.path()).unwrap_err();
    assert_eq!(failure.exit, Exit::Damaged);
    assert!(
        failure.message.contains("is damaged: "),
        "{}",
        failure.message
    );
    assert!(
        failure.message.contains("Nothing was written"),
        "{}",
        failure.message
    );
    assert_eq!(fs::read(&state).unwrap(), bytes);
    let file = File::options().write(true).open(&state).unwrap();
    file.set_len((1 << 30) + 1).unwrap();
    let failure = read(dir.path()).unwrap_err();
    assert_eq!(failure.exit, Exit::Damaged);
    assert!(
        failure.message.contains("longer than any"),
        "{}",
        failure.message
    );
    bytes[8] = 9;
    fs::write(&state, &bytes).unwrap();
    let failure = read(dir.path()).unwrap_err();
    assert!(
        failure.message.contains("or of a later program"),
        "{}",
        failure.message
    );
}
