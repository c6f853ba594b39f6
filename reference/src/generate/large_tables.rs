//! Sound tables of any size that no file gave.

use crate::generate::edge_counts::give_counts;
use crate::random::Random;
use crate::record::{Kind, Sort};
use crate::rows::{EdgeRow, EntityRow, VersionRow, NO_VERSION};
use crate::tables::Tables;

/// Sound tables of this many rows and no more. Objects have even numbers,
/// subjects odd ones. There must be two entities or more, and a version for
/// each.
pub fn large_tables(random: &mut Random, entities: u32, versions: u32, edges: u32) -> Tables {
    let version_rows = version_rows(random, entities, versions);
    let entity_rows = entity_rows(random, entities, &version_rows);
    let mut edge_rows = edge_rows(random, &version_rows, edges);
    let starts = version_rows.iter().map(|row| row.end);
    let times = edge_rows.iter().map(|row| row.time);
    let last = starts.chain(times).max().unwrap_or(0);
    let accepted = edges + random.between(0, 2 * edges);
    give_counts(random, &mut edge_rows, accepted, last);
    Tables::of_rows(&entity_rows, &version_rows, &edge_rows, accepted, last)
}

/// A version of each entity, then versions of any.
fn version_rows(random: &mut Random, entities: u32, versions: u32) -> Vec<VersionRow> {
    let mut rows: Vec<VersionRow> = Vec::new();
    let mut of_entity: Vec<Vec<u32>> = vec![Vec::new(); entities as usize];
    for number in 0..versions {
        let entity = match number {
            _ if number < entities => number,
            _ => random.below(entities as usize) as u32,
        };
        let previous = previous_version(random, &of_entity[entity as usize]);
        rows.push(version_row(random, &rows, entity, previous));
        of_entity[entity as usize].push(number);
    }
    rows
}

/// One of the last few versions of the entity, now and then none.
fn previous_version(random: &mut Random, numbers: &[u32]) -> Option<u32> {
    if random.one_in(16) {
        return None;
    }
    let last_few = &numbers[numbers.len().saturating_sub(3)..];
    random.pick(last_few)
}

fn version_row(
    random: &mut Random,
    rows: &[VersionRow],
    entity: u32,
    previous: Option<u32>,
) -> VersionRow {
    let start = match previous {
        Some(number) => start_after(random, rows[number as usize].start),
        None => 0,
    };
    VersionRow {
        entity,
        start,
        end: start + random.between(0, 9),
        previous: previous.unwrap_or(NO_VERSION),
    }
}

/// The start of a version whose previous starts at this time: the same, often,
/// or a later one, above 0.
fn start_after(random: &mut Random, previous: u32) -> u32 {
    match random.below(3) {
        0 => previous.max(1),
        _ => previous + random.between(1, 9),
    }
}

/// Any version of each entity as its latest, mostly the last.
fn entity_rows(random: &mut Random, entities: u32, versions: &[VersionRow]) -> Vec<EntityRow> {
    let row = |entity: u32| EntityRow {
        sort: sort_of(entity).number(),
        latest: entity,
    };
    let mut rows: Vec<EntityRow> = (0..entities).map(row).collect();
    for (number, version) in versions.iter().enumerate() {
        if !random.one_in(4) {
            rows[version.entity as usize].latest = number as u32;
        }
    }
    rows
}

fn sort_of(entity: u32) -> Sort {
    Sort::ALL[(entity % 2) as usize]
}

/// Edges between any versions, at times that do not fall and are often equal.
fn edge_rows(random: &mut Random, versions: &[VersionRow], edges: u32) -> Vec<EdgeRow> {
    let mut time = 1;
    let mut rows = Vec::new();
    while rows.len() < edges as usize {
        let from = random.below(versions.len());
        let to = random.below(versions.len());
        if let Some(kind) = kind_between(random, versions[from].entity, versions[to].entity) {
            time += random.between(0, 3);
            rows.push(EdgeRow::new(from as u32, to as u32, kind, time));
        }
    }
    rows
}

/// A kind for an edge between versions of these entities, if one suits.
fn kind_between(random: &mut Random, source: u32, target: u32) -> Option<Kind> {
    if source == target {
        return None;
    }
    let mut kinds = Kind::ALL.to_vec();
    kinds.retain(|kind| kind.sorts() == (sort_of(source), sort_of(target)));
    random.pick(&kinds)
}

/// Subjects each of which forks the next, the last of them first. A pass over
/// the edges in their order, or against it, marks one version more.
pub fn tables_of_late_first_forks(count: u32) -> Tables {
    let entities: Vec<EntityRow> = (0..count)
        .map(|number| EntityRow {
            sort: Sort::Subject.number(),
            latest: number,
        })
        .collect();
    let versions: Vec<VersionRow> = (0..count)
        .map(|entity| VersionRow {
            entity,
            start: 0,
            end: 0,
            previous: NO_VERSION,
        })
        .collect();
    let edges: Vec<EdgeRow> = (1..count)
        .map(|time| EdgeRow::new(count - time - 1, count - time, Kind::Fork, time))
        .collect();
    let count = edges.len() as u32;
    Tables::of_rows(&entities, &versions, &edges, count, count)
}
