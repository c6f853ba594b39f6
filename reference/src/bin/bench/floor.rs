//! The floor: what the input costs to read, if nothing is done with it.

use reference::capacity::{EDGE_ROW, ENTITY_ROW, VERSION_ROW};
use reference::file::HEADER_BYTES;
use reference::record::RECORD_BYTES;
use reference::Tables;
use std::hint::black_box;

/// One plain pass over the records: each field of each is decoded and added
/// up.
pub fn decode_file(file: &[u8]) -> u32 {
    let records = black_box(file)[HEADER_BYTES..].chunks_exact(RECORD_BYTES);
    black_box(records.fold(0, |sum: u32, bytes| sum.wrapping_add(fields_of(bytes))))
}

fn fields_of(bytes: &[u8]) -> u32 {
    let kind = u32::from(bytes[0]);
    let sort = u32::from(bytes[1]);
    let source = u32::from(u16::from_le_bytes([bytes[2], bytes[3]]));
    let target = u32::from(u16::from_le_bytes([bytes[4], bytes[5]]));
    let zero = u32::from(u16::from_le_bytes([bytes[6], bytes[7]]));
    let time = u32::from_le_bytes([bytes[8], bytes[9], bytes[10], bytes[11]]);
    added_up([kind, sort, source, target, zero, time])
}

/// One plain pass over the rows in use: each number is read and added up.
pub fn read_tables(tables: &Tables) -> u32 {
    let counts = tables.counts;
    let entities = &tables.entities[..counts.entities as usize * ENTITY_ROW];
    let versions = &tables.versions[..counts.versions as usize * VERSION_ROW];
    let edges = &tables.edges[..counts.edges as usize * EDGE_ROW];
    black_box(added_up([entities, versions, edges].map(sum_of)))
}

fn sum_of(numbers: &[u32]) -> u32 {
    added_up(black_box(numbers).iter().copied())
}

fn added_up(numbers: impl IntoIterator<Item = u32>) -> u32 {
    numbers.into_iter().fold(0, u32::wrapping_add)
}

/// The same a row at a time, each row tested to be within its table.
pub fn read_rows(tables: &Tables) -> u32 {
    let view = black_box(tables.view());
    let entities = view.entity_rows().map(|row| added_up(row.numbers()));
    let versions = view.version_rows().map(|row| added_up(row.numbers()));
    let edges = view.edge_rows().map(|row| added_up(row.numbers()));
    black_box(added_up(entities.chain(versions).chain(edges)))
}

/// The plain pass with two more reads for each edge: the rows of the versions
/// it joins. No test of lent tables can do without them.
pub fn follow_edges(tables: &Tables) -> u32 {
    let versions = black_box(tables.versions.as_slice());
    let view = tables.view();
    let entity = |number: u32| versions[number as usize * VERSION_ROW];
    let joined = view.edge_rows().fold(0, |sum: u32, edge| {
        sum.wrapping_add(entity(edge.from) ^ entity(edge.to))
    });
    black_box(joined.wrapping_add(read_tables(tables)))
}
