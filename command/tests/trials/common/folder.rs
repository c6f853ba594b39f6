//! A temporary folder with a trail and recordings in it.

use super::recording::{Files, Recording};
use super::run::{run, trail, Run, DONE};
use super::state_file::StateFile;
use std::collections::BTreeMap;
use std::ffi::OsStr;
use std::fs;
use std::path::{Path, PathBuf};
use std::process::Command;
use tempfile::TempDir;

pub struct Folder {
    folder: TempDir,
}

impl Folder {
    /// A folder without a trail.
    pub fn empty() -> Folder {
        Folder {
            folder: tempfile::tempdir().unwrap(),
        }
    }

    /// A folder with an empty trail, that has no start yet.
    pub fn new() -> Folder {
        let folder = Folder::empty();
        folder.run(["init"]).expect(DONE);
        folder
    }

    /// A trail that has taken the recording in, as `first.slt`.
    pub fn with(recording: &Recording) -> Folder {
        let folder = Folder::new();
        folder.take(recording, "first").expect(DONE);
        folder
    }

    pub fn path(&self) -> &Path {
        self.folder.path()
    }

    pub fn join(&self, name: &str) -> PathBuf {
        self.path().join(name)
    }

    /// The trail's own folder.
    pub fn trail(&self) -> PathBuf {
        self.join("trail")
    }

    pub fn command<I: AsRef<OsStr>>(&self, arguments: impl IntoIterator<Item = I>) -> Command {
        let mut command = trail(&self.trail());
        command.args(arguments).current_dir(self.path());
        command
    }

    pub fn run<I: AsRef<OsStr>>(&self, arguments: impl IntoIterator<Item = I>) -> Run {
        run(&mut self.command(arguments))
    }

    /// Runs it with `--json`.
    pub fn json<I: AsRef<OsStr>>(&self, arguments: impl IntoIterator<Item = I>) -> Run {
        run(self.command(arguments).arg("--json"))
    }

    pub fn put(&self, recording: &Recording, base: &str) -> PathBuf {
        recording.put(self.path(), base)
    }

    pub fn put_files(&self, files: &Files, base: &str) -> PathBuf {
        files.put(self.path(), base)
    }

    pub fn take(&self, recording: &Recording, base: &str) -> Run {
        self.take_files(&recording.files(), base)
    }

    pub fn take_files(&self, files: &Files, base: &str) -> Run {
        self.put_files(files, base);
        self.run(["take", &format!("{base}.slt")])
    }

    pub fn state_path(&self) -> PathBuf {
        self.trail().join("state")
    }

    /// The bytes of the state file.
    pub fn state(&self) -> Vec<u8> {
        fs::read(self.state_path()).unwrap()
    }

    pub fn state_file(&self) -> StateFile {
        StateFile::parse(&self.state())
    }

    pub fn set_state(&self, bytes: &[u8]) {
        fs::write(self.state_path(), bytes).unwrap();
    }

    /// Every file below the folder with its bytes.
    pub fn contents(&self) -> BTreeMap<PathBuf, Vec<u8>> {
        let mut files = BTreeMap::new();
        add_contents(self.path(), &mut files);
        files
    }
}

fn add_contents(folder: &Path, files: &mut BTreeMap<PathBuf, Vec<u8>>) {
    for entry in fs::read_dir(folder).unwrap() {
        let path = entry.unwrap().path();
        if path.is_dir() {
            add_contents(&path, files);
        } else {
            files.insert(path.clone(), fs::read(&path).unwrap());
        }
    }
}
