//! What a trail holds from one command to the next.

mod decode;
mod encode;
#[cfg(test)]
mod properties;
#[cfg(test)]
mod tests;

pub use decode::Unreadable;

use crate::moment::Moment;
use crate::names::Names;
use std::io;
use trail::{Time, Trail};

/// SHA-256.
pub type Digest = [u8; 32];

#[derive(Clone, Debug)]
pub struct State {
    /// The moment of time 0.
    pub start: Option<Moment>,
    pub trail: Trail,
    /// As many as the trail has entities.
    pub names: Names,
    /// In the order in which they were taken in.
    pub taken: Vec<TakenFile>,
}

/// A recording that was taken in.
#[derive(Clone, Debug, PartialEq, Eq)]
pub struct TakenFile {
    /// Of the event file, its names and its start.
    pub digest: Digest,
    pub records: u32,
    pub events: u32,
    /// The event file's path as it was given.
    pub name: Vec<u8>,
}

impl State {
    pub fn empty(start: Option<Moment>) -> io::Result<State> {
        Ok(State {
            start,
            trail: Trail::new()?,
            names: Names::default(),
            taken: Vec::new(),
        })
    }

    pub fn moment(&self, time: Time) -> Option<Moment> {
        self.start.map(|start| start.plus(time))
    }

    /// The recording with this digest, if it was taken in.
    pub fn taken_before(&self, digest: &Digest) -> Option<&TakenFile> {
        self.taken.iter().find(|file| file.digest == *digest)
    }
}
