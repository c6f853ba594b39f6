//! The worst sound tables for the library's search of repeats and for its
//! passes.

use crate::batches::{batches_on, FullTrail, Peer};
use crate::line::{Goal, Line};
use crate::traces::Trace;
use reference::capacity::{MOST_EDGES, MOST_ENTITIES};
use reference::peer::Trail;
use reference::rows::{EdgeRow, EntityRow, VersionRow};
use reference::{FileBuilder, Kind, Sort, Tables};

/// The versions of the worst tables for traces; more take too long.
const CHAIN: u32 = 4_096;
const REPEATS: u32 = 64;

pub fn worst() -> Vec<Line> {
    let mut lines = vec![repeats_of_the_oldest_edge()];
    for chain in [CHAIN / 4, CHAIN] {
        lines.extend(traces_against_the_edges(chain));
    }
    lines
}

/// Object 0 was read by subject 2 first and then run by subject 1 as often as
/// there are edges left. Each read by subject 2 repeats the oldest edge.
fn repeats_of_the_oldest_edge() -> Line {
    let sorts = [Sort::Object, Sort::Subject, Sort::Subject];
    let entities: Vec<EntityRow> = (0..)
        .zip(sorts)
        .map(|(number, sort)| EntityRow::first(number, sort))
        .collect();
    let versions: Vec<VersionRow> = (0..3).map(VersionRow::first).collect();
    let edges = MOST_EDGES as u32;
    let run = |time: u32| EdgeRow::new(0, 1, Kind::Execve, time);
    let rows: Vec<EdgeRow> = [EdgeRow::new(0, 2, Kind::Read, 1)]
        .into_iter()
        .chain((2..=edges).map(run))
        .collect();
    let tables = Tables::of_rows(&entities, &versions, &rows, edges, edges);
    let peer = Trail::of_tables(&tables);
    let mut file = FileBuilder::new();
    for event in 1..=REPEATS {
        file = file.read(0, 2, edges + event);
    }
    let name = format!("worst: {REPEATS} repeats of the oldest of {edges} edges of a version");
    let mut trail = FullTrail { tables, peer };
    batches_on(name, Goal::None, &mut trail, &[file.bytes()], Peer::Kept)
}

/// Each version forks the next, four times, and the last of them does so
/// first: each pass marks one version more.
fn traces_against_the_edges(versions: u32) -> Vec<Line> {
    let tables = chain_of_forks(versions);
    let peer = Trail::of_tables(&tables);
    let last = (versions - 1) % MOST_ENTITIES as u32;
    let name = format!("worst: {versions} versions, as many passes");
    let traces = [Trace::backward(last, u32::MAX), Trace::forward(0, 0)];
    let line = |trace: Trace| trace.line(&name, Goal::None, &tables, &peer);
    traces.map(line).into_iter().collect()
}

fn chain_of_forks(count: u32) -> Tables {
    let entities = count.min(MOST_ENTITIES as u32);
    let subject = |number| EntityRow::first(number, Sort::Subject);
    let mut entity_rows: Vec<EntityRow> = (0..entities).map(subject).collect();
    let last = (count - 1) % entities;
    entity_rows[last as usize].latest = count - 1;
    let version = |number: u32| VersionRow::first(number % entities);
    let versions: Vec<VersionRow> = (0..count).map(version).collect();
    let fork = |number: u32| {
        let from = count - 2 - number / 4;
        EdgeRow::new(from, from + 1, Kind::Fork, number + 1)
    };
    let edges: Vec<EdgeRow> = (0..4 * (count - 1)).map(fork).collect();
    let accepted = edges.len() as u32;
    Tables::of_rows(&entity_rows, &versions, &edges, accepted, accepted)
}
