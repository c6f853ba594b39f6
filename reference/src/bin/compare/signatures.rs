//! Files of each version, signatures with each field, and signatures at each
//! place of the worked trail.

use crate::comparison::{Compared, Comparison};
use crate::lists::ListTrail;
use crate::round_trip::taken_in_again;
use crate::worked_trail::worked_tables;
use reference::file::HEADER_BYTES;
use reference::generate::{any_version, grown_tables, lend_anew, sign_where, sound_tables};
use reference::record::RECORD_BYTES;
use reference::{worked_file, worked_signed_file, Call, FileBuilder, FileVersion};
use reference::{Random, TableLengths, Tables};

/// Trails of each origin on which the fields and entities are tried.
const TRAILS: usize = 2;
/// The entities of the worked trail and one that is not declared.
const WORKED_ENTITIES: u16 = 5;

/// Every version up to 8, and some that differ from 1 and 2 in the high byte.
pub fn versions(comparison: &mut Comparison, _: &mut Random) -> Compared {
    let high = [255, 256, 257, 258, 512, 513, 514, 0x8001, 0x8002, u16::MAX];
    let header = FileBuilder::new().bytes();
    for version in (0..=8).chain(high) {
        let refusal = match FileVersion::from_number(version) {
            Some(_) => 0,
            None => 2,
        };
        for file in [header.clone(), worked_file()] {
            let file = with_version(file, version);
            let mut tables = Tables::fresh(TableLengths::of_rows(5, 6, 5));
            let answer = comparison.batch(&mut tables, file)?;
            assert_eq!(answer.refusal(), refusal, "version {version}");
        }
        let signed = with_version(worked_signed_file().bytes(), version);
        let mut tables = Tables::fresh(TableLengths::of_rows(5, 6, 5));
        comparison.batch(&mut tables, signed)?;
        comparison.kept_logs(&tables)?;
    }
    Ok(())
}

fn with_version(mut file: Vec<u8>, version: u16) -> Vec<u8> {
    file[3..5].copy_from_slice(&version.to_le_bytes());
    file
}

/// A signature of each entity, with each byte as it should be and with other
/// values, in files of both versions, on several trails.
pub fn fields(comparison: &mut Comparison, random: &mut Random) -> Compared {
    let mut trails = vec![worked_tables()];
    trails.extend((0..TRAILS).map(|_| grown_tables(random, 30)));
    trails.extend((0..TRAILS).map(|_| sound_tables(random)));
    for tables in trails {
        for entity in 0..=tables.counts.entities as u16 {
            for record in every_signature(entity) {
                for version in FileVersion::ALL {
                    let file = FileBuilder::of_version(version).raw(&record);
                    comparison.batch(&mut tables.clone(), file.bytes())?;
                }
            }
        }
    }
    Ok(())
}

/// The signature of the entity, and with one byte changed.
fn every_signature(entity: u16) -> Vec<[u8; RECORD_BYTES]> {
    let [low, high] = entity.to_le_bytes();
    let good = [6, 0, low, high, 0, 0, 0, 0, 0, 0, 0, 0];
    let mut records = vec![good];
    for place in 0..RECORD_BYTES {
        for other in [1, 2, 3, 4, 6, 0x80, 0xFF] {
            let mut changed = good;
            changed[place] ^= other;
            records.push(changed);
        }
    }
    records
}

/// The worked trail with one signature more, or two, at each place of its
/// file, of each entity, also by the full list.
pub fn worked_trail(comparison: &mut Comparison, random: &mut Random) -> Compared {
    let file = FileBuilder::version_2().raw(&worked_file()[HEADER_BYTES..]);
    for once in with_signature(&file.bytes()) {
        by_list(comparison, random, &once)?;
        for twice in with_signature(&once) {
            by_list(comparison, random, &twice)?;
        }
    }
    Ok(())
}

/// The file with a signature of each entity at each place.
fn with_signature(file: &[u8]) -> Vec<Vec<u8>> {
    let mut files = Vec::new();
    let places = (HEADER_BYTES..=file.len()).step_by(RECORD_BYTES);
    for place in places {
        for entity in 0..WORKED_ENTITIES {
            let (before, after) = file.split_at(place);
            let signature = &FileBuilder::new().sign(entity).bytes()[HEADER_BYTES..];
            files.push([before, signature, after].concat());
        }
    }
    files
}

/// Takes the file in; then the rest of it, without the record refused, in a
/// file of either version.
fn by_list(comparison: &mut Comparison, random: &mut Random, file: &[u8]) -> Compared {
    let mut trail = ListTrail::fresh();
    let lengths = TableLengths::of_rows(5, 7, 7);
    trail.tables = lend_anew(random, &Tables::fresh(lengths), lengths);
    let file = file.to_vec();
    trail.call(comparison, Call::Batch { file: file.clone() })?;
    let taken = trail.taken();
    let rest = file.get(HEADER_BYTES + RECORD_BYTES * (taken + 1)..);
    if let Some(rest) = rest {
        let rest = FileBuilder::of_version(any_version(random)).raw(rest);
        trail.call(comparison, Call::Batch { file: rest.bytes() })?;
    }
    taken_in_again(comparison, &trail.tables, lengths)
}

/// The kept log of the worked trail with any of its objects signed, also taken
/// in again, and all its traces.
pub fn kept_logs(comparison: &mut Comparison, random: &mut Random) -> Compared {
    for choice in 0..16 {
        let mut tables = worked_tables();
        sign_where(&mut tables, |number| choice >> number & 1 == 1);
        taken_in_again(comparison, &tables, tables.view().lengths())?;
        comparison.all_traces(random, &tables)?;
    }
    Ok(())
}
