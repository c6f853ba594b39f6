//! Event files: good, careless, damaged, cut short.

use crate::file_builder::FileBuilder;
use crate::file_version::FileVersion;
use crate::generate::records::RecordSource;
use crate::random::Random;
use crate::record::{encode, Record, Signature, RECORD_BYTES};

/// Either version.
pub fn any_version(random: &mut Random) -> FileVersion {
    FileVersion::ALL[random.below(2)]
}

/// A file of either version whose records are all taken in if rows are left.
pub fn event_file(random: &mut Random, source: &mut RecordSource, records: usize) -> Vec<u8> {
    let version = any_version(random);
    let records = source.records(random, version, records);
    FileBuilder::of_version(version).records(&records).bytes()
}

/// A file in which now and then a record is wrong in one field or in several,
/// or is a signature of any entity, in a version 1 file too.
pub fn careless_file(random: &mut Random, source: &mut RecordSource, records: usize) -> Vec<u8> {
    let version = any_version(random);
    let mut file = FileBuilder::of_version(version);
    for _ in 0..records {
        let before = source.clone();
        let mut bytes = encode(source.record(random, version));
        match random.below(24) {
            0..=2 => spoil(random, &before, &mut bytes),
            3 => bytes = encode(any_signature(random, &before)),
            _ => {}
        }
        file = file.raw(&bytes);
    }
    file.bytes()
}

/// A signature of an object or a subject, signed or not, declared or not.
fn any_signature(random: &mut Random, source: &RecordSource) -> Record {
    let entity = random.below(source.sorts.len() + 2) as u16;
    Record::Signature(Signature { entity })
}

/// Gives each field of the record a chance of a careless value.
fn spoil(random: &mut Random, source: &RecordSource, bytes: &mut [u8; RECORD_BYTES]) {
    let entities = source.sorts.len();
    if random.one_in(5) {
        bytes[0] = random.below(8) as u8;
    }
    if random.one_in(8) {
        bytes[1] = random.below(4) as u8;
    }
    for field in [2, 4] {
        if random.one_in(2) {
            bytes[field] = random.below(entities + 2) as u8;
        }
    }
    if random.one_in(8) {
        bytes[3 + random.below(5)] = random.byte();
    }
    if random.one_in(2) {
        let time = careless_time(random, source.last);
        bytes[8..12].copy_from_slice(&time.to_le_bytes());
    }
}

/// A time at or near the last accepted time, now and then the first or the
/// last of all.
fn careless_time(random: &mut Random, last: u32) -> u32 {
    match random.below(20) {
        0 => u32::MAX,
        1..=5 => 0,
        6..=13 => last.saturating_sub(1),
        14..=16 => last,
        _ => last.saturating_add(1),
    }
}

/// The file with one byte changed. The file must not be empty.
pub fn damaged_file(random: &mut Random, file: &[u8]) -> Vec<u8> {
    let mut damaged = file.to_vec();
    let place = random.below(file.len());
    damaged[place] ^= random.between(1, 255) as u8;
    damaged
}

/// The file cut somewhere before its end. The file must not be empty.
pub fn cut_file(random: &mut Random, file: &[u8]) -> Vec<u8> {
    file[..random.below(file.len())].to_vec()
}

/// A good, careless, damaged or cut file.
pub fn any_file(random: &mut Random, source: &mut RecordSource, records: usize) -> Vec<u8> {
    match random.below(6) {
        0 | 1 => event_file(random, source, records),
        2 | 3 => careless_file(random, source, records),
        4 => {
            let file = event_file(random, source, records);
            damaged_file(random, &file)
        }
        _ => {
            let file = event_file(random, source, records);
            cut_file(random, &file)
        }
    }
}
