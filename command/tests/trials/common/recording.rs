//! A recording: an event file, and the names and the start beside it.

use std::ffi::OsStr;
use std::fs;
use std::os::unix::ffi::OsStrExt;
use std::path::{Path, PathBuf};

pub const HEADER_LENGTH: usize = 8;
pub const RECORD_LENGTH: usize = 12;

#[derive(Clone, Copy, Debug, PartialEq, Eq)]
pub enum Sort {
    Object = 0,
    Subject = 1,
}

#[derive(Clone, Copy, Debug, PartialEq, Eq)]
pub enum Kind {
    Read = 1,
    Write = 2,
    Load = 3,
    Fork = 4,
    Execve = 5,
}

#[derive(Clone, Copy, Debug, PartialEq, Eq)]
pub enum Record {
    Declaration(Sort),
    Event {
        kind: Kind,
        source: u16,
        target: u16,
        time: u32,
    },
    Signature(u16),
}

/// A recording whose entities are named; line i of the names is that of entity i.
#[derive(Clone, Debug, Default)]
pub struct Recording {
    pub records: Vec<Record>,
    pub lines: Vec<Vec<u8>>,
    pub start: Option<String>,
}

impl Recording {
    /// An empty recording that started at a moment.
    pub fn at(start: &str) -> Recording {
        Recording {
            start: Some(start.to_string()),
            ..Recording::default()
        }
    }

    pub fn declare(&mut self, sort: Sort, line: impl AsRef<[u8]>) -> u16 {
        self.records.push(Record::Declaration(sort));
        self.lines.push(line.as_ref().to_vec());
        (self.lines.len() - 1) as u16
    }

    pub fn object(&mut self, line: impl AsRef<[u8]>) -> u16 {
        self.declare(Sort::Object, line)
    }

    pub fn subject(&mut self, line: impl AsRef<[u8]>) -> u16 {
        self.declare(Sort::Subject, line)
    }

    pub fn event(&mut self, kind: Kind, source: u16, target: u16, time: u32) {
        self.records.push(Record::Event {
            kind,
            source,
            target,
            time,
        });
    }

    pub fn read(&mut self, object: u16, subject: u16, time: u32) {
        self.event(Kind::Read, object, subject, time);
    }

    pub fn write(&mut self, subject: u16, object: u16, time: u32) {
        self.event(Kind::Write, subject, object, time);
    }

    pub fn sign(&mut self, object: u16) {
        self.records.push(Record::Signature(object));
    }

    pub fn events(&self) -> usize {
        let is_event = |record: &&Record| matches!(record, Record::Event { .. });
        self.records.iter().filter(is_event).count()
    }

    pub fn event_file(&self) -> Vec<u8> {
        let signed = self
            .records
            .iter()
            .any(|record| matches!(record, Record::Signature(_)));
        let mut bytes = header(if signed { 2 } else { 1 });
        let mut declared = 0;
        for record in &self.records {
            bytes.extend(encode(*record, declared));
            declared += u16::from(matches!(record, Record::Declaration(_)));
        }
        bytes
    }

    pub fn names(&self) -> Vec<u8> {
        let mut text = Vec::new();
        for line in &self.lines {
            text.extend_from_slice(line);
            text.push(b'\n');
        }
        text
    }

    pub fn files(&self) -> Files {
        Files {
            events: self.event_file(),
            names: Some(self.names()),
            start: self
                .start
                .as_ref()
                .map(|start| format!("{start}\n").into_bytes()),
        }
    }

    pub fn put(&self, folder: &Path, base: &str) -> PathBuf {
        self.files().put(folder, base)
    }
}

/// The bytes of the three files; names and start may be missing.
#[derive(Clone, Debug, PartialEq, Eq)]
pub struct Files {
    pub events: Vec<u8>,
    pub names: Option<Vec<u8>>,
    pub start: Option<Vec<u8>>,
}

impl Files {
    /// Writes `BASE.slt`, `BASE.names`, `BASE.start`, and gives the path of the first.
    pub fn put(&self, folder: &Path, base: &str) -> PathBuf {
        let path = folder.join(format!("{base}.slt"));
        fs::write(&path, &self.events).unwrap();
        for (file, bytes) in [("names", &self.names), ("start", &self.start)] {
            if let Some(bytes) = bytes {
                fs::write(path.with_extension(file), bytes).unwrap();
            }
        }
        path
    }

    /// What stands at the path now; nothing if there is no event file.
    pub fn get(path: &Path) -> Option<Files> {
        Some(Files {
            events: fs::read(path).ok()?,
            names: fs::read(path.with_extension("names")).ok(),
            start: fs::read(path.with_extension("start")).ok(),
        })
    }
}

/// Whether none of the three files is there.
pub fn is_gone(path: &Path) -> bool {
    ["slt", "names", "start"]
        .iter()
        .all(|file| !path.with_extension(file).exists())
}

pub fn header(version: u16) -> Vec<u8> {
    let mut bytes = b"SLT".to_vec();
    bytes.extend(version.to_le_bytes());
    bytes.extend([0; 3]);
    bytes
}

/// A record; a declaration is of the given number.
pub fn encode(record: Record, number: u16) -> [u8; RECORD_LENGTH] {
    match record {
        Record::Declaration(sort) => fields(0, sort as u8, number, 0, 0),
        Record::Event {
            kind,
            source,
            target,
            time,
        } => fields(kind as u8, 0, source, target, time),
        Record::Signature(object) => fields(6, 0, object, 0, 0),
    }
}

fn fields(kind: u8, sort: u8, first: u16, second: u16, time: u32) -> [u8; RECORD_LENGTH] {
    let mut bytes = [0; RECORD_LENGTH];
    bytes[0] = kind;
    bytes[1] = sort;
    bytes[2..4].copy_from_slice(&first.to_le_bytes());
    bytes[4..6].copy_from_slice(&second.to_le_bytes());
    bytes[8..12].copy_from_slice(&time.to_le_bytes());
    bytes
}

/// Where the record of a number (from 1) begins.
pub fn offset(record: usize) -> usize {
    HEADER_LENGTH + RECORD_LENGTH * (record - 1)
}

/// The study, the stager, the report and the montage of the worked trail.
pub fn worked() -> Recording {
    let mut recording = Recording::at("2026-11-17T19:20:45.12");
    let study = recording.object("/data/study");
    let stager = recording.subject("/bin/stager[7]");
    let report = recording.object("/data/report");
    let montage = recording.object("/data/montage");
    recording.read(study, stager, 1);
    recording.write(stager, report, 2);
    recording.read(study, stager, 3);
    recording.write(stager, report, 4);
    recording.read(montage, stager, 5);
    recording.write(stager, report, 6);
    recording.read(montage, stager, 7);
    recording
}

/// A name as the recorder writes it: 0A, `\` and `;` escaped.
pub fn escaped(name: &[u8]) -> Vec<u8> {
    let mut text = Vec::new();
    for byte in name {
        match byte {
            b'\n' => text.extend(b"\\n"),
            b'\\' => text.extend(b"\\\\"),
            b';' => text.extend(b"\\;"),
            _ => text.push(*byte),
        }
    }
    text
}

pub fn os(bytes: &[u8]) -> &OsStr {
    OsStr::from_bytes(bytes)
}
