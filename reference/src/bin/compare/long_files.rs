//! Long files taken into a fresh trail, up to the caps.

use crate::comparison::{Compared, Comparison};
use crate::round_trip::taken_in_again;
use reference::capacity::{MOST_ACCEPTED, MOST_EDGES, MOST_ENTITIES, MOST_VERSIONS};
use reference::file::HEADER_BYTES;
use reference::generate::{
    at_one_time, declared_members, long_file, long_signed_file, signatures_of,
};
use reference::record::RECORD_BYTES;
use reference::{Kind, Random, TableLengths, Tables};

const TRACES_AT_CAPS: usize = 2;
const TRACES: usize = 8;
/// The most members of a list.
const MEMBERS: usize = 30;

/// Files refused for want of a version row, of an edge row and of accepted
/// events, each grown from fresh to the cap, the last of them in one tick.
pub fn grown_to_caps(comparison: &mut Comparison, random: &mut Random) -> Compared {
    let entities = MOST_ENTITIES as u16;
    let file = long_file(random, entities, &Kind::ALL, 300_000);
    grown_to_cap(comparison, random, file, 11)?;
    let file = long_file(random, entities, &mostly_into_subjects(), 420_000);
    grown_to_cap(comparison, random, file, 12)?;
    let kinds = [Kind::Read, Kind::Load];
    let file = long_file(random, 40, &kinds, MOST_ACCEPTED as usize + 5);
    grown_to_cap(comparison, random, at_one_time(&file, 9), 13)
}

/// Few writes, so that few versions are made.
fn mostly_into_subjects() -> Vec<Kind> {
    let mut kinds = vec![Kind::Read; 40];
    kinds.extend([Kind::Execve; 20]);
    kinds.push(Kind::Write);
    kinds
}

fn grown_to_cap(
    comparison: &mut Comparison,
    random: &mut Random,
    file: Vec<u8>,
    refusal: u32,
) -> Compared {
    let lengths = TableLengths::of_rows(MOST_ENTITIES + 1, MOST_VERSIONS + 1, MOST_EDGES + 1);
    let mut tables = Tables::fresh(lengths);
    let answer = comparison.batch(&mut tables, file)?;
    assert_eq!(answer.refusal(), refusal, "the file is made for this cap");
    some_traces(comparison, random, &tables, TRACES_AT_CAPS)?;
    taken_in_again(comparison, &tables, lengths)?;
    let signatures = signatures_of(&tables);
    let answer = comparison.batch(&mut tables, signatures)?;
    assert_eq!(answer.refusal(), 0, "a signature needs no row");
    taken_in_again(comparison, &tables, lengths)
}

fn some_traces(
    comparison: &mut Comparison,
    random: &mut Random,
    tables: &Tables,
    count: usize,
) -> Compared {
    for _ in 0..count {
        let entities = tables.counts.entities;
        let length = random.below(MEMBERS + 1);
        let members = declared_members(random, entities, length);
        let entity = random.below(entities as usize) as u32;
        let time = random.between(0, tables.counts.last);
        comparison.traces(tables, entity, time)?;
        comparison.forward(tables, &members, time)?;
    }
    Ok(())
}

/// Files of some thousand records of many entities, without signatures, in one
/// tick and with signatures, taken in by parts.
pub fn long_files(comparison: &mut Comparison, random: &mut Random) -> Compared {
    for events in [300, 3_000] {
        let entities = random.between(8, 200) as u16;
        let file = long_file(random, entities, &Kind::ALL, events);
        by_parts(comparison, random, &file)?;
        by_parts(comparison, random, &at_one_time(&file, events as u32))?;
        let file = long_signed_file(random, entities, events);
        by_parts(comparison, random, &file)?;
    }
    Ok(())
}

fn by_parts(comparison: &mut Comparison, random: &mut Random, file: &[u8]) -> Compared {
    let lengths = TableLengths::of_rows(200, 2_500, 3_000);
    let mut tables = Tables::fresh(lengths);
    for part in parts(random, file) {
        comparison.batch(&mut tables, part)?;
    }
    some_traces(comparison, random, &tables, TRACES)?;
    taken_in_again(comparison, &tables, lengths)
}

/// The records of the file in three files.
fn parts(random: &mut Random, file: &[u8]) -> Vec<Vec<u8>> {
    let (header, records) = file.split_at(HEADER_BYTES);
    let count = records.len() / RECORD_BYTES;
    let mut places = [random.below(count + 1), random.below(count + 1)];
    places.sort_unstable();
    let [first, second] = places.map(|place| place * RECORD_BYTES);
    let parts = [
        &records[..first],
        &records[first..second],
        &records[second..],
    ];
    let with_header = |part: &[u8]| [header, part].concat();
    parts.map(with_header).to_vec()
}
