//! The state file, read and written from outside the command.

use super::recording::Files;
use sha2::{Digest, Sha256};

pub const CHECKSUM_LENGTH: usize = 32;

/// The fields of a state file in their order; rows as numbers.
#[derive(Clone, Debug, PartialEq, Eq)]
pub struct StateFile {
    pub magic: [u8; 8],
    pub format: u32,
    pub has_start: u32,
    pub start: i64,
    pub counts: [u32; 5],
    pub entities: Vec<[u32; 2]>,
    pub versions: Vec<[u32; 4]>,
    pub edges: Vec<[u32; 6]>,
    pub names_length: u64,
    pub names: Vec<u8>,
    pub taken_count: u32,
    pub taken: Vec<TakenFile>,
    /// Bytes after the last field, before the checksum.
    pub rest: Vec<u8>,
}

#[derive(Clone, Debug, PartialEq, Eq)]
pub struct TakenFile {
    pub digest: [u8; 32],
    pub records: u32,
    pub events: u32,
    pub name_length: u32,
    pub name: Vec<u8>,
}

struct Reader<'a> {
    bytes: &'a [u8],
}

impl Reader<'_> {
    fn bytes(&mut self, count: usize) -> Vec<u8> {
        let (these, rest) = self.bytes.split_at(count);
        self.bytes = rest;
        these.to_vec()
    }

    fn array<const N: usize>(&mut self) -> [u8; N] {
        self.bytes(N).try_into().unwrap()
    }

    fn number(&mut self) -> u32 {
        u32::from_le_bytes(self.array())
    }

    fn row<const N: usize>(&mut self) -> [u32; N] {
        std::array::from_fn(|_| self.number())
    }

    fn rows<const N: usize>(&mut self, count: u32) -> Vec<[u32; N]> {
        (0..count).map(|_| self.row()).collect()
    }

    fn taken(&mut self) -> TakenFile {
        let digest = self.array();
        let records = self.number();
        let events = self.number();
        let name_length = self.number();
        TakenFile {
            digest,
            records,
            events,
            name_length,
            name: self.bytes(name_length as usize),
        }
    }
}

impl StateFile {
    /// Reads a whole state file; one that is not whole fails the test.
    pub fn parse(file: &[u8]) -> StateFile {
        let (body, checksum) = file.split_at(file.len() - CHECKSUM_LENGTH);
        assert_eq!(
            Sha256::digest(body).as_slice(),
            checksum,
            "checksum of the state file"
        );
        let mut reader = Reader { bytes: body };
        let magic = reader.array();
        let format = reader.number();
        let has_start = reader.number();
        let start = i64::from_le_bytes(reader.array());
        let counts: [u32; 5] = reader.row();
        let entities = reader.rows(counts[0]);
        let versions = reader.rows(counts[1]);
        let edges = reader.rows(counts[2]);
        let names_length = u64::from_le_bytes(reader.array());
        let names = reader.bytes(names_length as usize);
        let taken_count = reader.number();
        let taken = (0..taken_count).map(|_| reader.taken()).collect();
        assert_eq!(&magic, b"SLTSTATE");
        assert_eq!(format, 1);
        assert!(reader.bytes.is_empty(), "bytes after the files taken");
        StateFile {
            magic,
            format,
            has_start,
            start,
            counts,
            entities,
            versions,
            edges,
            names_length,
            names,
            taken_count,
            taken,
            rest: Vec::new(),
        }
    }

    /// The file, with its checksum; lengths and counts are written as they stand.
    pub fn bytes(&self) -> Vec<u8> {
        let mut bytes = self.magic.to_vec();
        bytes.extend(self.format.to_le_bytes());
        bytes.extend(self.has_start.to_le_bytes());
        bytes.extend(self.start.to_le_bytes());
        let rows = self.entities.iter().flatten();
        let rows = rows
            .chain(self.versions.iter().flatten())
            .chain(self.edges.iter().flatten());
        for number in self.counts.iter().chain(rows) {
            bytes.extend(number.to_le_bytes());
        }
        bytes.extend(self.names_length.to_le_bytes());
        bytes.extend(&self.names);
        bytes.extend(self.taken_count.to_le_bytes());
        for file in &self.taken {
            bytes.extend(file.digest);
            for number in [file.records, file.events, file.name_length] {
                bytes.extend(number.to_le_bytes());
            }
            bytes.extend(&file.name);
        }
        bytes.extend(&self.rest);
        with_checksum(bytes)
    }

    pub fn set_names(&mut self, names: &[u8]) {
        self.names = names.to_vec();
        self.names_length = names.len() as u64;
    }

    pub fn has_taken(&self, files: &Files) -> bool {
        let digest = digest(files);
        self.taken.iter().any(|file| file.digest == digest)
    }
}

pub fn with_checksum(mut body: Vec<u8>) -> Vec<u8> {
    let checksum = Sha256::digest(&body);
    body.extend(checksum);
    body
}

/// The digest of a recording: each file's length and bytes, 2^64-1 for a missing one.
pub fn digest(files: &Files) -> [u8; 32] {
    let mut hash = Sha256::new();
    for file in [
        Some(&files.events),
        files.names.as_ref(),
        files.start.as_ref(),
    ] {
        match file {
            Some(bytes) => {
                hash.update((bytes.len() as u64).to_le_bytes());
                hash.update(bytes);
            }
            None => hash.update(u64::MAX.to_le_bytes()),
        }
    }
    hash.finalize().into()
}
