//! Small trails for the tests of the modules.

use crate::moment::Moment;
use crate::state::State;
use std::ffi::OsString;
use std::os::unix::ffi::OsStringExt;
use trail::{DeclaredSort, EventFile, Kind, Time};

/// Writes an event file and the bases of its entities.
#[derive(Default)]
pub struct Sample {
    file: EventFile,
    bases: Vec<Vec<u8>>,
}

impl Sample {
    /// A file of this base: an object.
    pub fn file(self, base: impl AsRef<[u8]>) -> Sample {
        self.declare(base.as_ref(), DeclaredSort::Object)
    }

    /// A program of this base: a subject.
    pub fn program(self, base: impl AsRef<[u8]>) -> Sample {
        self.declare(base.as_ref(), DeclaredSort::Subject)
    }

    fn declare(mut self, base: &[u8], sort: DeclaredSort) -> Sample {
        self.file.declare(self.bases.len() as u16, sort);
        self.bases.push(base.to_vec());
        self
    }

    pub fn read(mut self, file: u16, program: u16, time: u32) -> Sample {
        self.file.event(Kind::Read, file, program, Time(time));
        self
    }

    pub fn write(mut self, program: u16, file: u16, time: u32) -> Sample {
        self.file.event(Kind::Write, program, file, Time(time));
        self
    }

    pub fn sign(mut self, file: u16) -> Sample {
        self.file.sign(file);
        self
    }

    pub fn state(self) -> State {
        let mut state = State::empty(None).unwrap();
        state.trail.batch(self.file.as_bytes()).unwrap();
        for base in &self.bases {
            state.names.push_made(base);
        }
        state
    }

    /// With a start, 2026-11-17T19:20:45.00.
    pub fn state_with_start(self) -> State {
        State {
            start: Moment::parse("2026-11-17T19:20:45"),
            ..self.state()
        }
    }
}

/// A night: a study that a stager reads to write a report, which is written again and read by a viewer.
pub fn night() -> Sample {
    Sample::default()
        .file("/srv/studies/night-1.edf")
        .program("/usr/bin/stager[40]")
        .file("/srv/reports/night-1.txt")
        .program("/usr/bin/stager[41]")
        .file("/srv/reports/night-1.txt")
        .program("/usr/bin/viewer[42]")
        .file("/usr/bin/viewer")
        .read(0, 1, 100)
        .write(1, 2, 200)
        .read(0, 3, 300)
        .write(3, 4, 400)
        .read(4, 5, 500)
}

pub fn typed(bytes: impl AsRef<[u8]>) -> OsString {
    OsString::from_vec(bytes.as_ref().to_vec())
}
