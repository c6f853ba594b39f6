//! Event files, written record by record.

use crate::{DeclaredSort, Kind, Record, Time, HEADER_LENGTH};

const HEADER: [u8; HEADER_LENGTH] = [b'S', b'L', b'T', 1, 0, 0, 0, 0];
/// Where the header has its version, in its lower byte.
const VERSION: usize = 3;

/// An event file: the header, and the records pushed so far. It is of version 2 as soon as it holds a signature, else of version 1.
///
/// ```
/// use trail::{DeclaredSort, EventFile, Kind, Time};
///
/// let mut file = EventFile::new();
/// file.declare(0, DeclaredSort::Object);
/// file.declare(1, DeclaredSort::Subject);
/// file.event(Kind::Read, 0, 1, Time(1));
/// assert_eq!(file.as_bytes().len(), trail::HEADER_LENGTH + 3 * trail::RECORD_LENGTH);
/// ```
#[derive(Clone, Debug, PartialEq, Eq)]
pub struct EventFile {
    bytes: Vec<u8>,
}

impl EventFile {
    /// A file without records.
    pub fn new() -> EventFile {
        EventFile {
            bytes: HEADER.to_vec(),
        }
    }

    pub fn push(&mut self, record: Record) {
        if matches!(record, Record::Signature { .. }) {
            self.bytes[VERSION] = 2;
        }
        self.bytes.extend(record.encode());
    }

    pub fn declare(&mut self, entity: u16, sort: DeclaredSort) {
        self.push(Record::Declaration { entity, sort });
    }

    pub fn event(&mut self, kind: Kind, source: u16, target: u16, time: Time) {
        self.push(Record::Event {
            kind,
            source,
            target,
            time,
        });
    }

    pub fn sign(&mut self, entity: u16) {
        self.push(Record::Signature { entity });
    }

    pub fn as_bytes(&self) -> &[u8] {
        &self.bytes
    }

    pub fn into_bytes(self) -> Vec<u8> {
        self.bytes
    }
}

impl Default for EventFile {
    fn default() -> EventFile {
        EventFile::new()
    }
}

impl Extend<Record> for EventFile {
    fn extend<I: IntoIterator<Item = Record>>(&mut self, records: I) {
        records.into_iter().for_each(|record| self.push(record));
    }
}

impl FromIterator<Record> for EventFile {
    fn from_iter<I: IntoIterator<Item = Record>>(records: I) -> EventFile {
        let mut file = EventFile::new();
        file.extend(records);
        file
    }
}
