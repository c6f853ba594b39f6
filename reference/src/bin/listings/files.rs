//! The files the listing program is run on.

use reference::file::HEADER_BYTES;
use reference::generate::{
    any_file, at_one_time, careless_file, damaged_file, long_file, long_signed_file, RecordSource,
};
use reference::listing::MOST_BYTES;
use reference::{worked_file, worked_file_from, worked_signed_file, FileBuilder, Kind, Random};

const ANY: usize = 250;
const CARELESS: usize = 150;
const LONGEST: usize = 12;
/// Records in the longest file.
const MOST_RECORDS: u16 = 2_730;

pub fn files(random: &mut Random) -> Vec<Vec<u8>> {
    let mut files = vec![FileBuilder::new().bytes()];
    files.extend(cuts(&worked_file()));
    files.push(worked_file_from(0));
    files.extend(damaged_headers(&worked_file()));
    files.extend(damaged_headers(&worked_signed_file().bytes()));
    files.extend(signed_files());
    files.extend(tied_files());
    files.extend(any_files(random));
    files.extend(longest_files(random));
    files.extend(files_too_long(random));
    files
}

/// The file up to each of its bytes, none and all included.
fn cuts(file: &[u8]) -> Vec<Vec<u8>> {
    (0..=file.len())
        .map(|length| file[..length].to_vec())
        .collect()
}

/// Each byte of the header with other values.
fn damaged_headers(file: &[u8]) -> Vec<Vec<u8>> {
    let mut files = Vec::new();
    for place in 0..HEADER_BYTES {
        for other in [1, 2, 3, 0x80] {
            let mut damaged = file.to_vec();
            damaged[place] ^= other;
            files.push(damaged);
        }
    }
    files
}

/// The worked trail with its report signed, then records into and out of it.
fn signed_files() -> Vec<Vec<u8>> {
    let signed = worked_signed_file();
    let files = [
        signed.clone(),
        signed.clone().sign(2),
        signed.clone().sign(0).sign(3).read(3, 1, 8),
        signed.clone().sign(1),
        signed.clone().sign(4),
        signed.clone().write(1, 2, 8),
        signed.clone().write(1, 2, 7),
        signed.clone().write(1, 0, 8).read(2, 1, 9),
        signed.raw(&[6, 0, 3, 0, 0, 0, 0, 0, 1, 0, 0, 0]),
    ];
    files.map(FileBuilder::bytes).to_vec()
}

/// The worked trail in one tick, and after its last event others at that time,
/// before it and at time 0.
fn tied_files() -> Vec<Vec<u8>> {
    let mut files = [1, 7, u32::MAX]
        .map(|time| at_one_time(&worked_file(), time))
        .to_vec();
    files.push(at_one_time(&worked_file(), 0));
    for time in [0, 6, 7] {
        let again = FileBuilder::new().read(3, 1, time).write(1, 2, time);
        files.push([worked_file(), again.bytes()[HEADER_BYTES..].to_vec()].concat());
    }
    files
}

/// Good, careless, damaged and cut files.
fn any_files(random: &mut Random) -> Vec<Vec<u8>> {
    let mut files = Vec::new();
    for _ in 0..ANY {
        let records = random.below(60);
        files.push(any_file(random, &mut RecordSource::fresh(), records));
    }
    for _ in 0..CARELESS {
        let records = random.below(40);
        files.push(careless_file(random, &mut RecordSource::fresh(), records));
    }
    files
}

/// Files of 2,730 records, without signatures and with, as they are, damaged
/// and cut.
fn longest_files(random: &mut Random) -> Vec<Vec<u8>> {
    let mut files = vec![declarations(MOST_RECORDS).bytes()];
    for number in 0..LONGEST {
        let entities = random.between(4, 60) as u16;
        let events = usize::from(MOST_RECORDS - entities);
        let mut file = match number % 2 {
            0 => long_file(random, entities, &Kind::ALL, events),
            _ => long_signed_file(random, entities, events),
        };
        file.truncate(MOST_BYTES);
        files.push(damaged_file(random, &file));
        files.push(file[..MOST_BYTES - 1 - random.below(24)].to_vec());
        files.push(file);
    }
    files
}

/// Files longer than the listing program takes, by one byte or by many.
fn files_too_long(random: &mut Random) -> Vec<Vec<u8>> {
    let longest = declarations(MOST_RECORDS);
    vec![
        longest.clone().raw(&[0]).bytes(),
        longest.clone().raw(&[0; 11]).bytes(),
        longest.object(MOST_RECORDS).bytes(),
        vec![0; MOST_BYTES + 1],
        random.bytes(MOST_BYTES + 1),
        random.bytes(2 * MOST_BYTES),
        random.bytes(40_000),
        random.bytes(200_000),
        vec![0; MOST_BYTES],
    ]
}

fn declarations(count: u16) -> FileBuilder {
    (0..count).fold(FileBuilder::new(), |file, number| file.object(number))
}
