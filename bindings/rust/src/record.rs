//! The records of an event file, and their bytes.

use crate::{Kind, Sort, Time, RECORD_LENGTH};

const DECLARATION: u8 = 0;
const SIGNATURE: u8 = 6;

/// What an entity is declared as.
#[derive(Clone, Copy, Debug, PartialEq, Eq, Hash)]
pub enum DeclaredSort {
    Object = 0,
    Subject = 1,
}

impl From<DeclaredSort> for Sort {
    fn from(sort: DeclaredSort) -> Sort {
        match sort {
            DeclaredSort::Object => Sort::Object,
            DeclaredSort::Subject => Sort::Subject,
        }
    }
}

/// A record of an event file.
#[derive(Clone, Copy, Debug, PartialEq, Eq, Hash)]
pub enum Record {
    /// Adds an entity; the number must be the next.
    Declaration { entity: u16, sort: DeclaredSort },
    /// An event at a time.
    Event {
        kind: Kind,
        source: u16,
        target: u16,
        time: Time,
    },
    /// Signs an object: no event goes into it any more. Only in files of version 2.
    Signature { entity: u16 },
}

impl Record {
    /// The bytes of the record.
    pub fn encode(self) -> [u8; RECORD_LENGTH] {
        match self {
            Record::Declaration { entity, sort } => bytes(DECLARATION, sort as u8, entity, 0, 0),
            Record::Event {
                kind,
                source,
                target,
                time,
            } => bytes(kind as u8, 0, source, target, time.0),
            Record::Signature { entity } => bytes(SIGNATURE, 0, entity, 0, 0),
        }
    }

    /// The record of these bytes. `None` exactly where the library refuses them with 4 in a file of version 2.
    pub fn decode(bytes: [u8; RECORD_LENGTH]) -> Option<Record> {
        let [kind, sort, s0, s1, t0, t1, _, _, h0, h1, h2, h3] = bytes;
        let source = u16::from_le_bytes([s0, s1]);
        let target = u16::from_le_bytes([t0, t1]);
        let time = Time(u32::from_le_bytes([h0, h1, h2, h3]));
        let record = match kind {
            DECLARATION => Record::Declaration {
                entity: source,
                sort: if sort == 0 {
                    DeclaredSort::Object
                } else {
                    DeclaredSort::Subject
                },
            },
            SIGNATURE => Record::Signature { entity: source },
            _ => {
                let kind = Kind::ALL.into_iter().find(|of| *of as u8 == kind)?;
                Record::Event {
                    kind,
                    source,
                    target,
                    time,
                }
            }
        };
        // Bytes that a record does not have, and other sorts, are lost in it.
        (record.encode() == bytes).then_some(record)
    }
}

fn bytes(kind: u8, sort: u8, source: u16, target: u16, time: u32) -> [u8; RECORD_LENGTH] {
    let [s0, s1] = source.to_le_bytes();
    let [t0, t1] = target.to_le_bytes();
    let [h0, h1, h2, h3] = time.to_le_bytes();
    [kind, sort, s0, s1, t0, t1, 0, 0, h0, h1, h2, h3]
}
