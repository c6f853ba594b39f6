//! A state from its file, whatever that holds.

use super::encode::{FORMAT, MARK};
use super::{State, TakenFile};
use crate::moment::Moment;
use crate::names::{Names, NamesError};
use sha2::{Digest, Sha256};
use std::fmt;
use std::fs::File;
use std::io::{self, ErrorKind, Read};
use std::sync::Arc;
use std::thread;
use trail::{Counts, FromRowsError, HeldFile, Time, Trail};
use trail::{EDGE_WIDTH, ENTITY_WIDTH, VERSION_WIDTH};

/// More than any state has: its rows, 7.4 MB at most, names and files taken in.
const MOST_BYTES: u64 = 1 << 30;

/// Why there is no state.
#[derive(Debug)]
pub enum Unreadable {
    NotAState,
    LongerThanAny,
    OtherFormat(u32),
    CutShort {
        length: usize,
    },
    TooLong {
        more: usize,
    },
    OtherChecksum,
    BadStart,
    Unsound,
    NamesCount {
        names: usize,
        entities: u32,
    },
    BadNames(NamesError),
    /// Not the fault of the bytes: they cannot be read, or a thread that tests them cannot be started.
    Read(io::Error),
    Thread(io::Error),
}

impl State {
    #[cfg(test)]
    pub fn decode(bytes: &[u8]) -> Result<State, Unreadable> {
        State::held(HeldFile::from(bytes.to_vec()), |state| state)
    }

    /// The state that a file holds.
    pub fn read(file: File) -> Result<State, Unreadable> {
        State::ask(file, |mut state| {
            state.trail.detach();
            state
        })
    }

    /// What is answered, in moments, from the state that a file holds; nothing if its checksum, which is computed meanwhile, differs.
    pub fn ask<A>(mut file: File, answer: impl FnOnce(State) -> A) -> Result<A, Unreadable> {
        // Before all of it is read: it may be any file.
        let mut mark = [0; MARK.len()];
        match file.read_exact(&mut mark) {
            Err(error) if error.kind() == ErrorKind::UnexpectedEof => {}
            read => read.map_err(Unreadable::Read)?,
        }
        if mark != *MARK {
            return Err(Unreadable::NotAState);
        }
        if file.metadata().map_err(Unreadable::Read)?.len() > MOST_BYTES {
            return Err(Unreadable::LongerThanAny);
        }
        State::held(HeldFile::new(file).map_err(Unreadable::Read)?, answer)
    }

    fn held<A>(file: HeldFile, answer: impl FnOnce(State) -> A) -> Result<A, Unreadable> {
        let file = Arc::new(file);
        let parts = Parts::read(&file)?;
        let (summed, checksum) = (parts.summed, parts.checksum);
        thread::scope(|scope| {
            let is_right = thread::Builder::new()
                .spawn_scoped(scope, move || Sha256::digest(summed).as_slice() == checksum)
                .map_err(Unreadable::Thread)?;
            let answer = parts.state(&file).map(answer);
            match is_right.join().expect("a sum does not panic") {
                true => answer,
                false => Err(Unreadable::OtherChecksum),
            }
        })
    }
}

/// The parts of a state whose lengths fit.
struct Parts<'a> {
    has_start: u32,
    start: i64,
    counts: Counts,
    rows_at: usize,
    names: &'a [u8],
    taken: Vec<TakenFile>,
    /// All before the checksum.
    summed: &'a [u8],
    checksum: [u8; 32],
}

impl<'a> Parts<'a> {
    fn read(file: &'a [u8]) -> Result<Parts<'a>, Unreadable> {
        let mut reader = Reader { file, at: 0 };
        match reader.array() {
            Ok(mark) if mark == *MARK => {}
            _ => return Err(Unreadable::NotAState),
        }
        match reader.u32()? {
            FORMAT => {}
            format => return Err(Unreadable::OtherFormat(format)),
        }
        let has_start = reader.u32()?;
        let start = i64::from_le_bytes(reader.array()?);
        let counts = reader.counts()?;
        let rows_at = reader.at;
        reader.rows(counts.entities, ENTITY_WIDTH)?;
        reader.rows(counts.versions, VERSION_WIDTH)?;
        reader.rows(counts.edges, EDGE_WIDTH)?;
        let names_length = u64::from_le_bytes(reader.array()?);
        let names = reader.bytes(names_length)?;
        let mut taken = Vec::new();
        for _ in 0..reader.u32()? {
            taken.push(reader.taken_file()?);
        }
        let summed = &file[..reader.at];
        let checksum = reader.array()?;
        match file.len() - reader.at {
            0 => Ok(Parts {
                has_start,
                start,
                counts,
                rows_at,
                names,
                taken,
                summed,
                checksum,
            }),
            more => Err(Unreadable::TooLong { more }),
        }
    }

    /// The state of these parts of a file.
    fn state(self, file: &Arc<HeldFile>) -> Result<State, Unreadable> {
        let start = match (self.has_start, self.start) {
            (0, 0) => None,
            (1, start) => Some(Moment::start_from_hundredths(start).ok_or(Unreadable::BadStart)?),
            _ => return Err(Unreadable::BadStart),
        };
        let trail = Trail::from_file(self.counts, file, self.rows_at)?;
        let names = Names::from_text(self.names).map_err(Unreadable::BadNames)?;
        let entities = self.counts.entities;
        if names.len() != entities as usize {
            let names = names.len();
            return Err(Unreadable::NamesCount { names, entities });
        }
        Ok(State {
            start,
            trail,
            names,
            taken: self.taken,
        })
    }
}

/// Reads a file from its start on.
struct Reader<'a> {
    file: &'a [u8],
    at: usize,
}

impl<'a> Reader<'a> {
    fn bytes(&mut self, length: u64) -> Result<&'a [u8], Unreadable> {
        let rest = &self.file[self.at..];
        let bytes = usize::try_from(length)
            .ok()
            .and_then(|length| rest.get(..length));
        let bytes = bytes.ok_or(Unreadable::CutShort {
            length: self.file.len(),
        })?;
        self.at += bytes.len();
        Ok(bytes)
    }

    fn array<const LENGTH: usize>(&mut self) -> Result<[u8; LENGTH], Unreadable> {
        let bytes = self.bytes(LENGTH as u64)?;
        Ok(bytes.try_into().expect("as many as asked for"))
    }

    fn u32(&mut self) -> Result<u32, Unreadable> {
        self.array().map(u32::from_le_bytes)
    }

    fn counts(&mut self) -> Result<Counts, Unreadable> {
        Ok(Counts {
            entities: self.u32()?,
            versions: self.u32()?,
            edges: self.u32()?,
            accepted: self.u32()?,
            last: Time(self.u32()?),
        })
    }

    fn rows(&mut self, count: u32, width: usize) -> Result<(), Unreadable> {
        self.bytes(u64::from(count) * 4 * width as u64).map(|_| ())
    }

    fn taken_file(&mut self) -> Result<TakenFile, Unreadable> {
        let digest = self.array()?;
        let (records, events, length) = (self.u32()?, self.u32()?, self.u32()?);
        let name = self.bytes(length.into())?.to_vec();
        Ok(TakenFile {
            digest,
            records,
            events,
            name,
        })
    }
}

impl From<FromRowsError> for Unreadable {
    fn from(error: FromRowsError) -> Unreadable {
        match error {
            FromRowsError::Unsound => Unreadable::Unsound,
            FromRowsError::Thread(error) => Unreadable::Thread(error),
        }
    }
}

impl fmt::Display for Unreadable {
    fn fmt(&self, f: &mut fmt::Formatter) -> fmt::Result {
        match self {
            Unreadable::NotAState => write!(f, "it does not begin as the state of a trail does"),
            Unreadable::LongerThanAny => write!(f, "it is longer than any state of a trail"),
            Unreadable::OtherFormat(format) => {
                write!(
                    f,
                    "it is of format {format}, and this program knows format {FORMAT}"
                )
            }
            Unreadable::CutShort { length } => {
                write!(
                    f,
                    "it is cut short: it ends after {length} bytes, and its counts ask for more"
                )
            }
            Unreadable::TooLong { more } => {
                write!(
                    f,
                    "it is too long: {more} bytes follow where its counts say that it ends"
                )
            }
            Unreadable::OtherChecksum => write!(f, "its checksum differs"),
            Unreadable::BadStart => write!(f, "its start is no moment of the years 1970 to 2099"),
            Unreadable::Unsound => write!(f, "its tables are not sound"),
            Unreadable::NamesCount { names, entities } => {
                write!(f, "it has {names} names for {entities} entities")
            }
            Unreadable::BadNames(error) => write!(f, "its names are not those of a trail: {error}"),
            Unreadable::Read(error) => write!(f, "{error}"),
            Unreadable::Thread(error) => {
                write!(f, "cannot start a thread that tests it: {error}")
            }
        }
    }
}
