//! `take --remove` of three recordings into a trail that has one already, for runs that are ended before they are done.

use super::folder::Folder;
use super::random::Random;
use super::recording::{is_gone, Files};
use super::recordings::{long, HOUR};
use super::run::DONE;
use serde_json::Value;
use std::fs;
use std::path::PathBuf;
use std::process::Command;

const BASES: [&str; 3] = ["a", "b", "c"];
const TAKE: [&str; 5] = ["take", "--remove", "a.slt", "b.slt", "c.slt"];
const ASKED: [&str; 3] = ["back", "/data/study 0.edf", "--json"];

/// What goes in, and what a run that nobody ends comes to.
pub struct Removal {
    /// The states with none, one, two and all of the recordings in.
    states: Vec<Vec<u8>>,
    recordings: Vec<Files>,
    answer: Value,
}

/// What a run that was ended has left: so many recordings in the trail, so many event files still there.
#[derive(Clone, Copy, Debug, PartialEq, Eq)]
pub struct Left {
    pub taken: usize,
    pub files: usize,
}

impl Left {
    /// The state as before, every recording whole.
    pub const OLD: Left = Left { taken: 0, files: 3 };
    pub const DONE: Left = Left { taken: 3, files: 0 };
}

impl Removal {
    pub fn new(seed: u64, events: usize) -> Removal {
        let mut random = Random::new(seed);
        let mut recordings = (0..4).map(|night| long(&mut random, night * HOUR, events));
        let folder = Folder::with(&recordings.next().unwrap());
        let mut removal = Removal {
            states: vec![folder.state()],
            recordings: recordings.map(|recording| recording.files()).collect(),
            answer: Value::Null,
        };
        for (files, base) in removal.recordings.iter().zip(BASES) {
            folder.put_files(files, base);
            folder.run(["take", &format!("{base}.slt")]).expect(DONE);
            assert!(!removal.states.contains(&folder.state()));
            removal.states.push(folder.state());
        }
        removal.answer = folder.run(ASKED).expect(DONE).json();
        let folder = removal.lay();
        folder.run(TAKE).expect(DONE);
        assert!(removal.paths(&folder).iter().all(|path| is_gone(path)));
        assert_eq!(removal.check(&folder), Left::DONE);
        removal
    }

    /// A folder with the trail as before and the three recordings.
    pub fn lay(&self) -> Folder {
        let folder = Folder::empty();
        fs::create_dir(folder.trail()).unwrap();
        fs::write(folder.trail().join("lock"), "").unwrap();
        folder.set_state(&self.states[0]);
        for (files, base) in self.recordings.iter().zip(BASES) {
            folder.put_files(files, base);
        }
        folder
    }

    pub fn take(&self, folder: &Folder) -> Command {
        folder.command(TAKE)
    }

    pub fn paths(&self, folder: &Folder) -> Vec<PathBuf> {
        BASES
            .iter()
            .map(|base| folder.join(&format!("{base}.slt")))
            .collect()
    }

    /// The trail is whole, it has the first recordings or none, and those that it has not are still there whole.
    pub fn check(&self, folder: &Folder) -> Left {
        folder.run(["check"]).expect(DONE);
        let state = folder.state();
        let is_now = |known: &Vec<u8>| *known == state;
        let taken = self
            .states
            .iter()
            .position(is_now)
            .expect("a state with the first recordings in");
        let found: Vec<Option<Files>> = self
            .paths(folder)
            .iter()
            .map(|path| Files::get(path))
            .collect();
        for (files, whole) in found.iter().zip(&self.recordings).skip(taken) {
            assert!(
                files.as_ref() == Some(whole),
                "a recording is lost that the trail has not taken in"
            );
        }
        Left {
            taken,
            files: found.iter().flatten().count(),
        }
    }

    /// The same call on the files that are left ends where a run that nobody ended does.
    pub fn finish(&self, folder: &Folder) {
        let is_left = |file: &&str| !file.ends_with(".slt") || folder.join(file).exists();
        let again: Vec<&str> = TAKE.into_iter().filter(is_left).collect();
        if again.len() > 2 {
            folder.run(again).expect(DONE);
        }
        assert!(
            folder.state() == self.states[3],
            "the state differs from that of one run"
        );
        assert!(self.paths(folder).iter().all(|path| !path.exists()));
        assert_eq!(folder.run(ASKED).expect(DONE).json(), self.answer);
        assert_eq!(names_in(&folder.trail()), ["lock", "state"]);
    }
}

/// The names in a folder in order of the alphabet.
pub fn names_in(folder: &std::path::Path) -> Vec<String> {
    let name =
        |entry: std::io::Result<fs::DirEntry>| entry.unwrap().file_name().into_string().unwrap();
    let mut names: Vec<String> = fs::read_dir(folder).unwrap().map(name).collect();
    names.sort();
    names
}
