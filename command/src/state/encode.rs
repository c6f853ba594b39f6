//! A state as its file has it.

use super::{State, TakenFile};
use sha2::{Digest, Sha256};
use std::io::{self, Write};
use std::mem;
use std::sync::mpsc::{sync_channel, SyncSender};
use std::thread;

pub const MARK: &[u8; 8] = b"SLTSTATE";
pub const FORMAT: u32 = 1;

/// About how many bytes are written and summed up at a time, and how many times as many may wait to be summed up.
const PIECE: usize = 64 * 1024;
const WAITING: usize = 8;

impl State {
    #[cfg(test)]
    pub fn encode(&self) -> Vec<u8> {
        let mut bytes = Vec::new();
        self.write(&mut bytes).expect("memory can be written");
        bytes
    }

    pub fn write(&self, mut file: impl Write) -> io::Result<()> {
        let checksum = thread::scope(|scope| {
            let (summed, pieces) = sync_channel(WAITING);
            let sum = move || {
                let mut sum = Sha256::new();
                pieces.iter().for_each(|piece: Vec<u8>| sum.update(piece));
                sum.finalize()
            };
            let sum = thread::Builder::new().spawn_scoped(scope, sum)?;
            self.put(Pieces {
                file: &mut file,
                summed,
                piece: Vec::new(),
            })?;
            Ok::<_, io::Error>(sum.join().expect("a sum does not panic"))
        })?;
        file.write_all(&checksum)
    }

    /// All before the checksum.
    fn put(&self, mut out: Pieces<impl Write>) -> io::Result<()> {
        out.bytes(MARK)?;
        out.numbers(&[FORMAT, u32::from(self.start.is_some())])?;
        let start = self.start.map_or(0, |start| start.hundredths());
        out.bytes(&start.to_le_bytes())?;
        let counts = self.trail.counts();
        out.numbers(&[
            counts.entities,
            counts.versions,
            counts.edges,
            counts.accepted,
            counts.last.0,
        ])?;
        out.numbers(self.trail.entity_rows())?;
        out.numbers(self.trail.version_rows())?;
        out.numbers(self.trail.edge_rows())?;
        let names = self.names.text();
        out.bytes(&(names.len() as u64).to_le_bytes())?;
        out.bytes(&names)?;
        out.numbers(&[self.taken.len() as u32])?;
        for file in &self.taken {
            out.taken_file(file)?;
        }
        out.flush()
    }
}

/// A file that is written in pieces, each of which goes to be summed up.
struct Pieces<W> {
    file: W,
    summed: SyncSender<Vec<u8>>,
    piece: Vec<u8>,
}

impl<W: Write> Pieces<W> {
    fn bytes(&mut self, bytes: &[u8]) -> io::Result<()> {
        self.piece.extend_from_slice(bytes);
        self.flush_if_full()
    }

    fn numbers(&mut self, numbers: &[u32]) -> io::Result<()> {
        for some in numbers.chunks(PIECE / 4) {
            let bytes = some.iter().flat_map(|number| number.to_le_bytes());
            self.piece.extend(bytes);
            self.flush_if_full()?;
        }
        Ok(())
    }

    fn taken_file(&mut self, file: &TakenFile) -> io::Result<()> {
        self.bytes(&file.digest)?;
        self.numbers(&[file.records, file.events, file.name.len() as u32])?;
        self.bytes(&file.name)
    }

    fn flush_if_full(&mut self) -> io::Result<()> {
        if self.piece.len() < PIECE {
            return Ok(());
        }
        self.flush()
    }

    fn flush(&mut self) -> io::Result<()> {
        self.file.write_all(&self.piece)?;
        let piece = mem::replace(&mut self.piece, Vec::with_capacity(2 * PIECE));
        self.summed.send(piece).expect("the sum takes every piece");
        Ok(())
    }
}
