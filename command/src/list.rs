//! `trail list`: the entities with their sort, versions and events.

use crate::choice::Chosen;
use crate::cli::Choice;
use crate::report::Report;
use crate::show;
use crate::state::State;
use serde_json::{json, Value};
use trail::{EntityNo, Trail};

/// How many versions an entity has, and how many accepted events went into it and out of it.
#[derive(Clone, Copy, Default)]
struct Row {
    versions: u32,
    into: u64,
    out: u64,
}

pub fn run(state: &State, choice: &Choice, json: bool) -> Report {
    let chosen = Chosen::new(choice);
    let rows: Vec<(EntityNo, Row)> = (0..)
        .map(EntityNo)
        .zip(rows(&state.trail))
        .filter(|(entity, _)| chosen.shows(state, *entity))
        .collect();
    let value = || {
        rows.iter()
            .map(|(entity, row)| json_of(state, *entity, row))
            .collect()
    };
    Report::either(json, || text(state, &rows), value)
}

/// One pass over the versions and one over the edges.
fn rows(trail: &Trail) -> Vec<Row> {
    let mut rows = vec![Row::default(); trail.counts().entities as usize];
    let mut entity_of = Vec::with_capacity(trail.counts().versions as usize);
    for (_, version) in trail.versions() {
        let entity = version.entity.0 as usize;
        rows[entity].versions += 1;
        entity_of.push(entity);
    }
    for (_, edge) in trail.edges() {
        rows[entity_of[edge.to.0 as usize]].into += u64::from(edge.count);
        rows[entity_of[edge.from.0 as usize]].out += u64::from(edge.count);
    }
    rows
}

fn text(state: &State, rows: &[(EntityNo, Row)]) -> String {
    let header = ["#", "sort", "versions", "in", "out", "name"].map(str::to_string);
    let mut cells = vec![header];
    cells.extend(rows.iter().map(|(entity, row)| {
        let sort = show::sort_word(show::sort(state, *entity));
        let [versions, into, out] = [row.versions.into(), row.into, row.out].map(show::number);
        [
            format!("#{entity}"),
            sort.to_string(),
            versions,
            into,
            out,
            show::entity(state, *entity),
        ]
    }));
    let width = |column: usize| cells.iter().map(|row| row[column].len()).max().unwrap_or(0);
    let [a, b, c, d, e] = [0, 1, 2, 3, 4].map(width);
    let line = |row: &[String; 6]| {
        let [number, sort, versions, into, out, name] = row;
        format!("{number:<a$}  {sort:<b$}  {versions:>c$}  {into:>d$}  {out:>e$}  {name}\n")
    };
    cells.iter().map(line).collect()
}

fn json_of(state: &State, entity: EntityNo, row: &Row) -> Value {
    let mut members = show::entity_json(state, entity);
    members.insert("versions".to_string(), json!(row.versions));
    members.insert("in".to_string(), json!(row.into));
    members.insert("out".to_string(), json!(row.out));
    members.into()
}

#[cfg(test)]
mod tests;
