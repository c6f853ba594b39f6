//! Tables full up to the caps, and lent with more rows than they allow.

use crate::comparison::{Compared, Comparison};
use reference::capacity::{
    EDGE_ROW, ENTITY_ROW, MOST_ACCEPTED, MOST_EDGES, MOST_ENTITIES, MOST_VERSIONS, VERSION_ROW,
};
use reference::generate::{
    all_members, count_all, declared_members, in_one_tick, large_tables, lend_anew,
    long_file_event, raise_accepted, set_count, signatures_of, tables_with_edges,
    tables_with_entities, tables_with_versions,
};
use reference::{FileBuilder, Kind, Random, TableLengths, Tables};

/// Rows in use that are missing to the caps.
const MISSING: u32 = 40;
/// As the count of all 262,144 edges it makes a sum of 2^32 and 262,144.
const COUNT_PAST_32_BITS: u32 = 16_385;
/// Places traced on tables with all rows in use.
const FULL_TRACES: usize = 5;
/// The members of a list on tables with all rows in use.
const MEMBERS: usize = 30;

/// One table at a time, one row below its cap, at it and above it; also with
/// all versions and edges of one tick.
pub fn each_cap(comparison: &mut Comparison, random: &mut Random) -> Compared {
    let declarations = FileBuilder::new().object(4_095).object(4_096).bytes();
    for count in [4_095, 4_096, 4_097] {
        let tables = tables_with_entities(count);
        at_cap(comparison, random, &tables, &declarations)?;
    }
    let events = FileBuilder::new().read(2, 0, 70_000).write(0, 1, 70_001);
    let events = events.read(1, 0, 70_002).bytes();
    let declarations = FileBuilder::new().object(3).object(4).bytes();
    for count in [65_535, 65_536, 65_537] {
        let mut tables = tables_with_versions(count);
        at_cap(comparison, random, &tables, &events)?;
        at_cap(comparison, random, &tables, &declarations)?;
        in_one_tick(&mut tables);
        at_cap(comparison, random, &tables, &events)?;
    }
    let events = FileBuilder::new().read(2, 0, 300_000).read(2, 0, 300_001);
    let events = events.write(0, 2, 300_002).bytes();
    for count in [262_143, 262_144, 262_145] {
        let mut tables = tables_with_edges(count);
        at_cap(comparison, random, &tables, &events)?;
        in_one_tick(&mut tables);
        at_cap(comparison, random, &tables, &events)?;
    }
    Ok(())
}

fn at_cap(
    comparison: &mut Comparison,
    random: &mut Random,
    tables: &Tables,
    file: &[u8],
) -> Compared {
    comparison.batch(&mut tables.clone(), file.to_vec())?;
    let (entities, last) = (tables.counts.entities, tables.counts.last);
    for time in [0, last / 2, last] {
        for entity in [0, 1, entities - 1, entities] {
            comparison.traces(tables, entity, time)?;
        }
        comparison.forward(tables, &[entities - 1, 0, entities - 1], time)?;
    }
    let all = all_members(random, entities);
    comparison.forward(tables, &[], last)?;
    comparison.forward(tables, &all, last)?;
    comparison.forward(tables, &[all.as_slice(), &[entities]].concat(), last)?;
    comparison.kept_logs(tables)?;
    comparison.each_call(random, tables)?;
    signed_at_cap(comparison, random, tables, file)
}

/// All objects signed by one batch, which needs no row; then the file, which
/// may hold events into them.
fn signed_at_cap(
    comparison: &mut Comparison,
    random: &mut Random,
    tables: &Tables,
    file: &[u8],
) -> Compared {
    let mut signed = tables.clone();
    comparison.batch(&mut signed, signatures_of(tables))?;
    comparison.batch(&mut signed.clone(), file.to_vec())?;
    comparison.batch(&mut signed.clone(), signatures_of(tables))?;
    comparison.kept_logs(&signed)?;
    comparison.each_call(random, &signed)
}

/// Accepted one below its cap, at it and above it.
pub fn accepted_cap(comparison: &mut Comparison, random: &mut Random) -> Compared {
    for accepted in [MOST_ACCEPTED - 1, MOST_ACCEPTED, MOST_ACCEPTED + 1] {
        let mut tables = large_tables(random, 6, 20, 30);
        let lengths = TableLengths::of_rows(9, 40, 40);
        tables = lend_anew(random, &tables, lengths);
        raise_accepted(random, &mut tables, accepted).expect("there are edges");
        for kind in Kind::ALL {
            let file = events_after(random, &tables, &[kind], 3);
            comparison.batch(&mut tables.clone(), file)?;
        }
        let declaration = FileBuilder::new().object(6).bytes();
        signed_at_cap(comparison, random, &tables, &declaration)?;
        comparison.batch(&mut tables.clone(), declaration)?;
        comparison.each_call(random, &tables)?;
    }
    Ok(())
}

/// All three tables full, each with some rows lent past its cap.
pub fn all_full(comparison: &mut Comparison, random: &mut Random) -> Compared {
    let caps = [MOST_ENTITIES, MOST_VERSIONS, MOST_EDGES].map(|cap| cap as u32);
    let tables = large_tables(random, caps[0], caps[1], caps[2]);
    let lengths = lengths_past_caps();
    let tables = lend_anew(random, &tables, lengths);
    for _ in 0..FULL_TRACES {
        let entity = random.below(MOST_ENTITIES) as u32;
        let time = random.between(0, tables.counts.last);
        comparison.traces(&tables, entity, time)?;
        let members = declared_members(random, tables.counts.entities, MEMBERS);
        comparison.forward(&tables, &members, time)?;
    }
    comparison.kept_logs(&tables)?;
    let declaration = FileBuilder::new().object(4_096).bytes();
    comparison.batch(&mut tables.clone(), declaration)?;
    let events = events_after(random, &tables, &Kind::ALL, 9);
    comparison.batch(&mut tables.clone(), events.clone())?;
    signed_at_cap(comparison, random, &tables, &events)?;
    spoilt_last_rows(comparison, random, &tables)?;
    spoilt_counts(comparison, random, &tables)
}

fn lengths_past_caps() -> TableLengths {
    TableLengths::of_rows(MOST_ENTITIES + 2, MOST_VERSIONS + 3, MOST_EDGES + 4)
}

/// The last row of each table, not sound.
fn spoilt_last_rows(comparison: &mut Comparison, random: &mut Random, tables: &Tables) -> Compared {
    let mut spoilt = tables.clone();
    spoilt.entities[(MOST_ENTITIES - 1) * ENTITY_ROW] = 3;
    comparison.each_call(random, &spoilt)?;
    let mut spoilt = tables.clone();
    spoilt.versions[(MOST_VERSIONS - 1) * VERSION_ROW] = MOST_ENTITIES as u32;
    comparison.each_call(random, &spoilt)?;
    let mut spoilt = tables.clone();
    spoilt.edges[(MOST_EDGES - 1) * EDGE_ROW + 3] = 1;
    comparison.each_call(random, &spoilt)
}

/// A wrong count in the last edge row; counts that are right if summed in 32
/// bits; all edges and as many accepted events as there may be.
fn spoilt_counts(comparison: &mut Comparison, random: &mut Random, tables: &Tables) -> Compared {
    let edges = MOST_EDGES as u32;
    let last = tables.view().edge(edges - 1).count;
    for count in [last - 1, last + 1] {
        let mut spoilt = tables.clone();
        set_count(&mut spoilt, edges - 1, count);
        comparison.each_call(random, &spoilt)?;
    }
    let mut tables = tables_with_edges(edges);
    count_all(&mut tables, COUNT_PAST_32_BITS);
    comparison.each_call(random, &tables)?;
    let mut tables = tables_with_edges(edges);
    raise_accepted(random, &mut tables, MOST_ACCEPTED).expect("there are edges");
    comparison.each_call(random, &tables)
}

/// All three tables nearly full, then filled by batches.
pub fn nearly_full(comparison: &mut Comparison, random: &mut Random) -> Compared {
    let rows = [MOST_ENTITIES, MOST_VERSIONS, MOST_EDGES].map(|cap| cap as u32 - MISSING);
    let tables = large_tables(random, rows[0], rows[1], rows[2]);
    let mut tables = lend_anew(random, &tables, lengths_past_caps());
    let events = events_after(random, &tables, &Kind::ALL, 60);
    comparison.batch(&mut tables.clone(), events)?;
    let repeats = [Kind::Read, Kind::Write, Kind::Load];
    let events = events_after(random, &tables, &repeats, 60);
    comparison.batch(&mut tables, events)?;
    let mut declarations = FileBuilder::new();
    for number in rows[0]..=rows[0] + MISSING {
        declarations = declarations.subject(number as u16);
    }
    comparison.batch(&mut tables, declarations.bytes())?;
    comparison.kept_logs(&tables)
}

/// A file of events, two in each tick, that go on from tables with objects at
/// even and subjects at odd numbers. The first has the last time.
fn events_after(random: &mut Random, tables: &Tables, kinds: &[Kind], count: u32) -> Vec<u8> {
    let entities = tables.counts.entities as u16;
    let mut file = FileBuilder::new();
    for number in 1..=count {
        let time = tables.counts.last + number / 2;
        file = file.event(long_file_event(random, entities, kinds, time));
    }
    file.bytes()
}
