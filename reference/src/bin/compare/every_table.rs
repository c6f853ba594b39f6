//! Every sound table of two entities, three or four versions and up to three
//! edges with few values, grown or not: signed objects, counts of 1 and 2,
//! equal starts and equal edge times among them.

use crate::calls::small_lists;
use crate::comparison::{Compared, Comparison};
use crate::every_rows::{four_versions, three_versions, Rows, LAST};
use reference::capacity::{EDGE_ROW, ENTITY_ROW, VERSION_ROW};
use reference::generate::calls::batch_on;
use reference::rows::EdgeRow;
use reference::{Kind, Random, Sort, Tables};

/// Edges with each choice of times that do not fall.
const EDGES_AT_EACH_TIME: usize = 2;
/// Edges with any one choice.
const EDGES: usize = 3;

/// A batch on each table; the traces, which no count changes, once for all
/// counts.
pub fn every_table(comparison: &mut Comparison, random: &mut Random) -> Compared {
    for rows in three_versions() {
        for edges in every_edge_list(random, &every_way(&rows), EDGES) {
            let counted = every_count(random, &edges);
            for edges in &counted {
                compare_batch(comparison, random, rows.with_edges(edges))?;
            }
            let any = &counted[random.below(counted.len())];
            compare_traces(comparison, &rows.with_edges(any))?;
        }
    }
    for rows in four_versions() {
        for edges in every_edge_list(random, &every_way(&rows), EDGES_AT_EACH_TIME) {
            let counted = every_count(random, &edges);
            let any = &counted[random.below(counted.len())];
            compare_batch(comparison, random, rows.with_edges(any))?;
            compare_traces(comparison, &rows.with_edges(any))?;
        }
    }
    Ok(())
}

fn compare_traces(comparison: &mut Comparison, tables: &Tables) -> Compared {
    comparison.forward(tables, &[], LAST)?;
    for time in 0..=LAST {
        for entity in 0..2 {
            comparison.traces(tables, entity, time)?;
        }
        for members in small_lists(2) {
            comparison.forward(tables, &members, time)?;
        }
    }
    comparison.kept_logs(tables)
}

/// Any batch, in tables with some rows more.
fn compare_batch(comparison: &mut Comparison, random: &mut Random, mut tables: Tables) -> Compared {
    tables.entities.extend([1; ENTITY_ROW]);
    tables.versions.extend([1; VERSION_ROW]);
    tables.edges.extend([1; 2 * EDGE_ROW]);
    let batch = batch_on(random, &tables);
    comparison.call(&tables, batch)?;
    Ok(())
}

/// An edge, its time yet open, for each two versions that one may join.
fn every_way(rows: &Rows) -> Vec<EdgeRow> {
    let mut ways = Vec::new();
    for (from, source) in (0..).zip(&rows.versions) {
        for (to, target) in (0..).zip(&rows.versions) {
            let (source, target) = (source.entity, target.entity);
            let sorts = [source, target].map(|entity| rows.sort(entity));
            if let (true, Some(kind)) = (source != target, kind_of(sorts)) {
                ways.push(EdgeRow::new(from, to, kind, 0));
            }
        }
    }
    ways
}

/// A kind between entities of these sorts.
fn kind_of([source, target]: [Sort; 2]) -> Option<Kind> {
    let mut kinds = Kind::ALL.into_iter();
    kinds.find(|kind| kind.sorts() == (source, target))
}

/// All lists of up to so many edges: short ones at each choice of times that
/// do not fall, longer ones at one choice.
fn every_edge_list(random: &mut Random, ways: &[EdgeRow], most: usize) -> Vec<Vec<EdgeRow>> {
    let mut all = Vec::new();
    for length in 0..=most {
        let every = every_times(length);
        for list in every_way_list(ways, length) {
            let any = random.below(every.len());
            let chosen = match length <= EDGES_AT_EACH_TIME {
                true => &every[..],
                false => &every[any..=any],
            };
            all.extend(chosen.iter().map(|times| at_times(&list, times)));
        }
    }
    all
}

/// All lists of so many edges, their times yet open.
fn every_way_list(ways: &[EdgeRow], length: usize) -> Vec<Vec<EdgeRow>> {
    let mut lists: Vec<Vec<EdgeRow>> = vec![Vec::new()];
    for _ in 0..length {
        let longer = |list: &Vec<EdgeRow>| {
            let longer = ways.iter().map(|way| [list.as_slice(), &[*way]].concat());
            longer.collect::<Vec<_>>()
        };
        lists = lists.iter().flat_map(longer).collect();
    }
    lists
}

/// All choices of so many times, from 1 to the last, that do not fall.
fn every_times(length: usize) -> Vec<Vec<u32>> {
    let mut lists: Vec<Vec<u32>> = vec![Vec::new()];
    for _ in 0..length {
        let longer = |list: &Vec<u32>| {
            let lowest = list.last().copied().unwrap_or(1);
            let longer = (lowest..=LAST).map(|time| [list.as_slice(), &[time]].concat());
            longer.collect::<Vec<_>>()
        };
        lists = lists.iter().flat_map(longer).collect();
    }
    lists
}

fn at_times(edges: &[EdgeRow], times: &[u32]) -> Vec<EdgeRow> {
    let at_time = |(edge, time): (&EdgeRow, &u32)| EdgeRow {
        time: *time,
        ..*edge
    };
    edges.iter().zip(times).map(at_time).collect()
}

/// The edges with every count of 1 and 2, each time with any last times.
fn every_count(random: &mut Random, edges: &[EdgeRow]) -> Vec<Vec<EdgeRow>> {
    let choices = 0..1_u32 << edges.len();
    let mut counted = |choice: u32| {
        let row = |(place, edge): (usize, &EdgeRow)| EdgeRow {
            count: 1 + (choice >> place) % 2,
            last: random.between(edge.time, LAST),
            ..*edge
        };
        edges.iter().enumerate().map(row).collect()
    };
    choices.map(&mut counted).collect()
}
