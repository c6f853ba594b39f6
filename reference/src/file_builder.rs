//! Builds event files.

use crate::file::header;
use crate::file_version::FileVersion;
use crate::record::{encode, Declaration, Event, Kind, Record, Signature, Sort, RECORD_BYTES};

/// An event file under construction; it begins with the header.
#[derive(Clone, Debug)]
pub struct FileBuilder {
    bytes: Vec<u8>,
}

impl Default for FileBuilder {
    fn default() -> FileBuilder {
        FileBuilder::new()
    }
}

impl FileBuilder {
    /// A file of version 1.
    pub fn new() -> FileBuilder {
        FileBuilder::of_version(FileVersion::One)
    }

    /// A file of version 2, which may hold signatures.
    pub fn version_2() -> FileBuilder {
        FileBuilder::of_version(FileVersion::Two)
    }

    pub fn of_version(version: FileVersion) -> FileBuilder {
        FileBuilder {
            bytes: header(version).to_vec(),
        }
    }

    pub fn bytes(self) -> Vec<u8> {
        self.bytes
    }

    /// Adds any bytes at all.
    pub fn raw(mut self, bytes: &[u8]) -> FileBuilder {
        self.bytes.extend_from_slice(bytes);
        self
    }

    pub fn record(self, record: Record) -> FileBuilder {
        let bytes: [u8; RECORD_BYTES] = encode(record);
        self.raw(&bytes)
    }

    pub fn records(self, records: &[Record]) -> FileBuilder {
        let add = |file: FileBuilder, record: &Record| file.record(*record);
        records.iter().fold(self, add)
    }

    pub fn declaration(self, declaration: Declaration) -> FileBuilder {
        self.record(Record::Declaration(declaration))
    }

    pub fn event(self, event: Event) -> FileBuilder {
        self.record(Record::Event(event))
    }

    /// Declares an object.
    pub fn object(self, number: u16) -> FileBuilder {
        let sort = Sort::Object;
        self.declaration(Declaration { number, sort })
    }

    /// Declares a subject.
    pub fn subject(self, number: u16) -> FileBuilder {
        let sort = Sort::Subject;
        self.declaration(Declaration { number, sort })
    }

    /// Signs an object.
    pub fn sign(self, entity: u16) -> FileBuilder {
        self.record(Record::Signature(Signature { entity }))
    }

    pub fn read(self, source: u16, target: u16, time: u32) -> FileBuilder {
        self.event_of(Kind::Read, source, target, time)
    }

    pub fn write(self, source: u16, target: u16, time: u32) -> FileBuilder {
        self.event_of(Kind::Write, source, target, time)
    }

    pub fn load(self, source: u16, target: u16, time: u32) -> FileBuilder {
        self.event_of(Kind::Load, source, target, time)
    }

    pub fn fork(self, source: u16, target: u16, time: u32) -> FileBuilder {
        self.event_of(Kind::Fork, source, target, time)
    }

    pub fn execve(self, source: u16, target: u16, time: u32) -> FileBuilder {
        self.event_of(Kind::Execve, source, target, time)
    }

    fn event_of(self, kind: Kind, source: u16, target: u16, time: u32) -> FileBuilder {
        self.event(Event {
            kind,
            source,
            target,
            time,
        })
    }
}
