//! What a batch answers.

use crate::{Refusal, HEADER_LENGTH, RECORD_LENGTH};
use std::error::Error;
use std::fmt;

/// What a batch took in.
#[derive(Clone, Copy, Debug, Default, PartialEq, Eq)]
pub struct Taken {
    /// How many records.
    pub records: u32,
    /// How many edges a search for repeats, without an index and from the newest edge, would try for them.
    pub tried: u64,
}

/// A batch refused: why, where, and what it took in before that.
#[derive(Clone, Copy, Debug, PartialEq, Eq)]
pub struct RefusedBatch {
    pub refusal: Refusal,
    /// The record refused, from 1; 0 if the file was refused before any record.
    pub record: u32,
    /// Where the record's first byte is in the file; 0 for record 0.
    pub offset: usize,
    /// The records before it, which are in the trail.
    pub taken: Taken,
}

impl RefusedBatch {
    pub(crate) fn new(refusal: Refusal, taken: Taken) -> RefusedBatch {
        let of_the_file = matches!(refusal, Refusal::NotEventFile | Refusal::WrongVersion);
        let (record, offset) = match of_the_file {
            true => (0, 0),
            false => (
                taken.records + 1,
                HEADER_LENGTH + RECORD_LENGTH * taken.records as usize,
            ),
        };
        RefusedBatch {
            refusal,
            record,
            offset,
            taken,
        }
    }
}

impl fmt::Display for RefusedBatch {
    fn fmt(&self, f: &mut fmt::Formatter<'_>) -> fmt::Result {
        let RefusedBatch {
            refusal,
            record,
            offset,
            taken,
        } = self;
        match record {
            0 => write!(f, "file refused with {refusal}"),
            _ => write!(
                f,
                "record {record} (byte {offset}) refused with {refusal}; {} before it taken in",
                taken.records
            ),
        }
    }
}

impl Error for RefusedBatch {}
