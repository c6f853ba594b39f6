//! The event file: its header and the walk over its records.

use crate::file_version::FileVersion;
use crate::record::{decode, Record, RECORD_BYTES};
use crate::refusal;

pub const HEADER_BYTES: usize = 8;
const MARK: &[u8] = b"SLT";

/// "SLT", the version, three zero bytes.
pub fn header(version: FileVersion) -> [u8; HEADER_BYTES] {
    let mut header = [0; HEADER_BYTES];
    header[0..3].copy_from_slice(MARK);
    header[3..5].copy_from_slice(&version.number().to_le_bytes());
    header
}

/// The version of the file, or refusal 1 or 2.
pub fn check_header(file: &[u8]) -> Result<FileVersion, u32> {
    if file.len() < HEADER_BYTES {
        return Err(refusal::HEADER);
    }
    if file[0..3] != *MARK || file[5..8] != [0; 3] {
        return Err(refusal::HEADER);
    }
    let number = u16::from_le_bytes([file[3], file[4]]);
    FileVersion::from_number(number).ok_or(refusal::FILE_VERSION)
}

/// How many of the first `records` records of a file are events.
pub fn events_among(file: &[u8], records: u32) -> u64 {
    let Ok(version) = check_header(file) else {
        return 0;
    };
    let record = |taken: u32| record_after(file, version, taken);
    let is_event = |taken: &u32| matches!(record(*taken), Some(Ok(Record::Event(_))));
    (0..records).filter(is_event).count() as u64
}

/// The record after `taken` others in a file of this version, or refusal 3 or
/// 4; none at the end.
pub fn record_after(file: &[u8], version: FileVersion, taken: u32) -> Option<Result<Record, u32>> {
    let offset = HEADER_BYTES + RECORD_BYTES * taken as usize;
    let rest = &file[offset..];
    if rest.is_empty() {
        return None;
    }
    if rest.len() < RECORD_BYTES {
        return Some(Err(refusal::CUT_RECORD));
    }
    let mut bytes = [0; RECORD_BYTES];
    bytes.copy_from_slice(&rest[..RECORD_BYTES]);
    Some(decode(version, bytes))
}
