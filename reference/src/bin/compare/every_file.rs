//! Every file of few records with few values.

use crate::comparison::{Compared, Comparison};
use crate::lists::ListTrail;
use crate::round_trip::taken_in_again;
use reference::generate::lend_anew;
use reference::record::RECORD_BYTES;
use reference::{Call, FileBuilder, FileVersion, Random, TableLengths, Tables};

/// Records of a file, all but the last taken in.
const RECORDS: usize = 4;

/// Every file of either version and of up to four records over three entities
/// and times 0 to 3, of which all but the last record are taken in; all traces
/// of those taken in whole.
pub fn every_file(comparison: &mut Comparison, random: &mut Random) -> Compared {
    for version in FileVersion::ALL {
        every_file_of(comparison, random, version)?;
    }
    Ok(())
}

fn every_file_of(
    comparison: &mut Comparison,
    random: &mut Random,
    version: FileVersion,
) -> Compared {
    let mut taken_in = vec![FileBuilder::of_version(version)];
    for _ in 0..RECORDS {
        let mut longer = Vec::new();
        for file in taken_in {
            for record in every_record() {
                let file = file.clone().raw(&record);
                if is_taken_in(comparison, random, file.clone())? {
                    longer.push(file);
                }
            }
        }
        taken_in = longer;
    }
    Ok(())
}

fn is_taken_in(
    comparison: &mut Comparison,
    random: &mut Random,
    file: FileBuilder,
) -> Compared<bool> {
    let file = file.bytes();
    let records = (file.len() - 8) / RECORD_BYTES;
    let mut trail = fresh(random, TableLengths::of_rows(3, 4, 2));
    trail.call(comparison, Call::Batch { file })?;
    let is_whole = trail.taken() == records;
    if is_whole {
        trail.all_traces(comparison)?;
        trail.small_lists(comparison)?;
        taken_in_again(comparison, &trail.tables, trail.tables.view().lengths())?;
    }
    Ok(is_whole)
}

/// A fresh trail in tables that hold anything.
pub fn fresh(random: &mut Random, lengths: TableLengths) -> ListTrail {
    let mut trail = ListTrail::fresh();
    trail.tables = lend_anew(random, &Tables::fresh(lengths), lengths);
    trail
}

fn every_record() -> Vec<[u8; RECORD_BYTES]> {
    let mut records = Vec::new();
    for number in 0..=3 {
        for sort in 0..=2 {
            records.push([0, sort, number, 0, 0, 0, 0, 0, 0, 0, 0, 0]);
        }
    }
    for kind in 1..=7 {
        for ends in 0..9 {
            for time in 0..=3 {
                let (source, target) = (ends / 3, ends % 3);
                records.push([kind, 0, source, 0, target, 0, 0, 0, time, 0, 0, 0]);
            }
        }
    }
    records
}
