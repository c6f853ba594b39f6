//! A recording: an event file, and beside it its names and its start, where there are such.

use crate::failure::{Exit, Failure};
use crate::moment::Moment;
use crate::path;
use crate::state::Digest;
use sha2::{Digest as _, Sha256};
use std::ffi::OsString;
use std::fs::{self, File};
use std::io::{self, ErrorKind, Read};
use std::os::unix::ffi::{OsStrExt, OsStringExt};
use std::path::{Path, PathBuf};
use trail::{Record, HEADER_LENGTH, MOST_ACCEPTED, MOST_ENTITIES, RECORD_LENGTH};

/// A file with more records than a trail can take in is refused at one before the end of these bytes: no more of it is read.
const MOST_BYTES: usize =
    HEADER_LENGTH + RECORD_LENGTH * (MOST_ACCEPTED + 2 * MOST_ENTITIES + 1) as usize;

/// Where the files of a recording are.
#[derive(Clone, Debug, PartialEq, Eq)]
pub struct Paths {
    pub file: PathBuf,
    pub names: PathBuf,
    pub start: PathBuf,
}

impl Paths {
    /// Names and start have the event file's path with another end, in place of a `.slt` or after any other.
    pub fn of(file: &Path) -> Paths {
        let bytes = file.as_os_str().as_bytes();
        let base = bytes.strip_suffix(b".slt").unwrap_or(bytes);
        let with_end = |end: &[u8]| PathBuf::from(OsString::from_vec([base, end].concat()));
        Paths {
            file: file.to_path_buf(),
            names: with_end(b".names"),
            start: with_end(b".start"),
        }
    }

    pub fn all(&self) -> [&Path; 3] {
        [&self.file, &self.names, &self.start]
    }
}

/// What the files of a recording hold, each read once.
#[derive(Clone, Debug)]
pub struct Recording {
    pub paths: Paths,
    pub file: Vec<u8>,
    pub names: Option<Vec<u8>>,
    pub start: Option<Vec<u8>>,
}

impl Recording {
    pub fn read(path: &Path) -> Result<Recording, Failure> {
        let paths = Paths::of(path);
        let file = read_event_file(path).map_err(|error| cannot_read(path, error))?;
        let names = read_if_there(&paths.names)?;
        let start = read_if_there(&paths.start)?;
        Ok(Recording {
            paths,
            file,
            names,
            start,
        })
    }

    /// Over the lengths and bytes of the three files; a missing one has the greatest length.
    pub fn digest(&self) -> Digest {
        let mut sum = Sha256::new();
        for part in [Some(&self.file), self.names.as_ref(), self.start.as_ref()] {
            let length = part.map_or(u64::MAX, |bytes| bytes.len() as u64);
            sum.update(length.to_le_bytes());
            sum.update(part.map_or(&[][..], Vec::as_slice));
        }
        sum.finalize().into()
    }

    /// The moment of the recording's time 0.
    pub fn start(&self) -> Result<Option<Moment>, Failure> {
        let Some(bytes) = &self.start else {
            return Ok(None);
        };
        let line = bytes
            .strip_suffix(b"\n")
            .and_then(|line| std::str::from_utf8(line).ok());
        let moment =
            line.and_then(|line| Moment::parse(line).filter(|moment| moment.to_string() == line));
        moment.filter(|moment| moment.may_start()).map(Some).ok_or_else(|| {
            let path = path::shown(&self.paths.start);
            let reason = "not a moment of the years 1970 to 2099 such as 2026-11-17T19:20:45.12, ended by a newline";
            Failure::new(Exit::Refused, format!("{path}: {reason}")).with("reason", format!("{path}: {reason}"))
        })
    }

    /// How many whole records the event file has.
    pub fn records(&self) -> u32 {
        (self.file.len().saturating_sub(HEADER_LENGTH) / RECORD_LENGTH) as u32
    }

    /// The record of a number, counted from 1, if it is a record.
    pub fn record(&self, number: u32) -> Option<Record> {
        let from = offset(number);
        let bytes = self.file.get(from..from + RECORD_LENGTH)?;
        Record::decode(bytes.try_into().expect("the bytes of a record"))
    }
}

/// Where a record begins in its file; 0 for record 0, which stands for the header.
pub fn offset(record: u32) -> usize {
    match record.checked_sub(1) {
        None => 0,
        Some(before) => HEADER_LENGTH + RECORD_LENGTH * before as usize,
    }
}

fn read_event_file(path: &Path) -> io::Result<Vec<u8>> {
    let mut bytes = Vec::new();
    File::open(path)?
        .take(MOST_BYTES as u64)
        .read_to_end(&mut bytes)?;
    Ok(bytes)
}

fn read_if_there(path: &Path) -> Result<Option<Vec<u8>>, Failure> {
    match fs::read(path) {
        Ok(bytes) => Ok(Some(bytes)),
        Err(error)
            if error.kind() == ErrorKind::NotFound && fs::symlink_metadata(path).is_err() =>
        {
            Ok(None)
        }
        // Also for a link that leads nowhere.
        Err(error) => Err(cannot_read(path, error)),
    }
}

fn cannot_read(file: &Path, error: io::Error) -> Failure {
    Failure::io(format!("cannot read {}", path::shown(file)), error)
}

#[cfg(test)]
pub mod sample;
#[cfg(test)]
mod tests;
