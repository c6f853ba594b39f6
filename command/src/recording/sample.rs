//! Recordings for tests, written record by record.

use super::{Paths, Recording};
use std::fs;
use std::path::{Path, PathBuf};
use trail::{DeclaredSort, EventFile, Kind, Time};

#[derive(Clone, Debug, Default)]
pub struct Sample {
    file: EventFile,
    declared: u16,
    names: Vec<u8>,
    without_names: bool,
    start: Option<String>,
}

impl Sample {
    pub fn new() -> Sample {
        Sample::default()
    }

    pub fn without_names() -> Sample {
        Sample {
            without_names: true,
            ..Sample::default()
        }
    }

    /// The next entity, from 0.
    pub fn object(self, line: impl AsRef<[u8]>) -> Sample {
        self.declare(DeclaredSort::Object, line.as_ref())
    }

    pub fn subject(self, line: impl AsRef<[u8]>) -> Sample {
        self.declare(DeclaredSort::Subject, line.as_ref())
    }

    pub fn declare(mut self, sort: DeclaredSort, line: &[u8]) -> Sample {
        self.file.declare(self.declared, sort);
        self.declared += 1;
        self.line(line)
    }

    /// A line of the names, without an entity.
    pub fn line(mut self, line: &[u8]) -> Sample {
        self.names.extend_from_slice(line);
        self.names.push(b'\n');
        self
    }

    pub fn event(mut self, kind: Kind, source: u16, target: u16, time: u32) -> Sample {
        self.file.event(kind, source, target, Time(time));
        self
    }

    pub fn read(self, object: u16, subject: u16, time: u32) -> Sample {
        self.event(Kind::Read, object, subject, time)
    }

    pub fn write(self, subject: u16, object: u16, time: u32) -> Sample {
        self.event(Kind::Write, subject, object, time)
    }

    pub fn sign(mut self, object: u16) -> Sample {
        self.file.sign(object);
        self
    }

    pub fn start(mut self, moment: &str) -> Sample {
        self.start = Some(format!("{moment}\n"));
        self
    }

    pub fn recording(self, name: impl AsRef<Path>) -> Recording {
        Recording {
            paths: Paths::of(name.as_ref()),
            file: self.file.into_bytes(),
            names: (!self.without_names).then_some(self.names),
            start: self.start.map(String::into_bytes),
        }
    }

    /// Writes the files into a folder; gives the event file's path.
    pub fn save(self, dir: &Path, name: &str) -> PathBuf {
        let recording = self.recording(dir.join(name));
        let Paths { file, names, start } = &recording.paths;
        fs::write(file, &recording.file).unwrap();
        for (path, bytes) in [(names, recording.names), (start, recording.start)] {
            if let Some(bytes) = bytes {
                fs::write(path, bytes).unwrap();
            }
        }
        file.clone()
    }
}
