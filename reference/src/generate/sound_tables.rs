//! Sound tables that no file gave.

use crate::capacity::MOST_ACCEPTED;
use crate::generate::edge_counts::give_counts;
use crate::generate::lengths::{lend_anew, odd_lengths};
use crate::generate::shapes::Shape;
use crate::generate::signed_tables::sign_some;
use crate::random::Random;
use crate::record::{Kind, Sort};
use crate::rows::{EdgeRow, EntityRow, VersionRow, NO_VERSION};
use crate::tables::Tables;

/// Sound tables of this shape.
pub fn sound_tables_of_shape(random: &mut Random, shape: Shape) -> Tables {
    loop {
        let tables = sound_tables(random);
        if shape.is_in(tables.view()) {
            return tables;
        }
    }
}

/// Any sound tables of a few rows, signed ones among them, at odd lengths.
pub fn sound_tables(random: &mut Random) -> Tables {
    let last = last_time(random);
    let sorts = sorts(random);
    let versions = version_rows(random, sorts.len(), last);
    let entities = entity_rows(random, &sorts, &versions);
    let mut edges = edge_rows(random, &sorts, &versions, last);
    let accepted = accepted_count(random, edges.len());
    give_counts(random, &mut edges, accepted, last);
    let mut tables = Tables::of_rows(&entities, &versions, &edges, accepted, last);
    sign_some(random, &mut tables);
    let lengths = odd_lengths(random, tables.counts);
    lend_anew(random, &tables, lengths)
}

/// A last time: mostly small, so that times meet.
fn last_time(random: &mut Random) -> u32 {
    match random.below(10) {
        0 => 0,
        1 => random.number(),
        2 => u32::MAX,
        _ => random.between(1, 20),
    }
}

/// The sorts of up to six entities, now and then of none.
fn sorts(random: &mut Random) -> Vec<Sort> {
    let count = match random.below(12) {
        0 => 0,
        _ => 1 + random.below(6),
    };
    (0..count).map(|_| Sort::ALL[random.below(2)]).collect()
}

/// Up to ten versions, at least one of each entity.
fn version_rows(random: &mut Random, entities: usize, last: u32) -> Vec<VersionRow> {
    let mut owners: Vec<u32> = (0..entities as u32).collect();
    if entities > 0 {
        let more = random.below(11 - entities);
        owners.extend((0..more).map(|_| random.below(entities) as u32));
    }
    random.shuffle(&mut owners);
    let mut rows: Vec<VersionRow> = Vec::new();
    for entity in owners {
        rows.push(version_row(random, &rows, entity, last));
    }
    rows
}

/// A version of the entity after the rows so far; often one that starts in the
/// tick of its previous.
fn version_row(random: &mut Random, rows: &[VersionRow], entity: u32, last: u32) -> VersionRow {
    let start_of = |number: u32| rows[number as usize].start;
    let numbers = 0..rows.len() as u32;
    let of_entity = numbers.filter(|number| rows[*number as usize].entity == entity);
    let started: Vec<u32> = of_entity
        .clone()
        .filter(|number| start_of(*number) > 0)
        .collect();
    let (start, previous) = match random.pick(&started) {
        Some(number) if random.one_in(2) => (start_of(number), Some(number)),
        _ => {
            let start = version_start(random, rows, entity, last);
            let may_be_previous = |number: &u32| start > 0 && start_of(*number) <= start;
            let numbers: Vec<u32> = of_entity.filter(may_be_previous).collect();
            (start, random.pick(&numbers))
        }
    };
    VersionRow {
        entity,
        start,
        end: random.between(start, last),
        previous: previous.unwrap_or(NO_VERSION),
    }
}

/// A start: 0, which the first version of an entity has, or any above 0.
fn version_start(random: &mut Random, rows: &[VersionRow], entity: u32, last: u32) -> u32 {
    let is_first = rows.iter().all(|row| row.entity != entity);
    match is_first || last == 0 || random.one_in(4) {
        true => 0,
        false => random.between(1, last),
    }
}

/// Any version of each entity as its latest.
fn entity_rows(random: &mut Random, sorts: &[Sort], versions: &[VersionRow]) -> Vec<EntityRow> {
    let mut rows = Vec::new();
    for (entity, sort) in sorts.iter().enumerate() {
        let numbers: Vec<u32> = (0..versions.len() as u32)
            .filter(|number| versions[*number as usize].entity as usize == entity)
            .collect();
        rows.push(EntityRow {
            sort: sort.number(),
            latest: random.pick(&numbers).expect("each entity has a version"),
        });
    }
    rows
}

/// Up to twelve edges between any versions, at times that do not fall.
fn edge_rows(
    random: &mut Random,
    sorts: &[Sort],
    versions: &[VersionRow],
    last: u32,
) -> Vec<EdgeRow> {
    let times = edge_times(random, last);
    let mut rows = Vec::new();
    for time in times {
        rows.extend(edge_row(random, sorts, versions, time));
    }
    rows
}

/// Times from one tick up to twelve, so that many are equal.
fn edge_times(random: &mut Random, last: u32) -> Vec<u32> {
    if last == 0 {
        return Vec::new();
    }
    let count = random.below(13);
    let ticks = 1 + random.below(12);
    let ticks: Vec<u32> = (0..ticks).map(|_| random.between(1, last)).collect();
    let mut times: Vec<u32> = (0..count).filter_map(|_| random.pick(&ticks)).collect();
    times.sort_unstable();
    times
}

/// An edge of a random kind; none if no two versions suit the kind.
fn edge_row(
    random: &mut Random,
    sorts: &[Sort],
    versions: &[VersionRow],
    time: u32,
) -> Option<EdgeRow> {
    let kind = random.pick(&Kind::ALL)?;
    let (source_sort, target_sort) = kind.sorts();
    let entity = |number: u32| versions[number as usize].entity;
    let of_sort = |number: u32, sort: Sort| sorts[entity(number) as usize] == sort;
    let numbers = 0..versions.len() as u32;
    let sources: Vec<u32> = numbers
        .clone()
        .filter(|number| of_sort(*number, source_sort))
        .collect();
    let from = random.pick(&sources)?;
    let targets: Vec<u32> = numbers
        .filter(|number| of_sort(*number, target_sort))
        .filter(|number| entity(*number) != entity(from))
        .collect();
    Some(EdgeRow::new(from, random.pick(&targets)?, kind, time))
}

/// At least the number of edges, at most 1,000,000; 0 if there is no edge.
fn accepted_count(random: &mut Random, edges: usize) -> u32 {
    let edges = edges as u32;
    match random.below(6) {
        _ if edges == 0 => 0,
        0 => MOST_ACCEPTED,
        1 => MOST_ACCEPTED - random.between(0, 3),
        2 => random.between(edges, MOST_ACCEPTED),
        3 => edges,
        _ => edges + random.between(0, 9),
    }
}
