//! `trail stats`: how much was kept, and how many rows are left.

use crate::paper;
use crate::report::Report;
use crate::rows_left::{self, Table};
use crate::show;
use crate::state::State;
use serde_json::{json, Map, Value};
use trail::{Counts, Sort, HEADER_LENGTH, RECORD_LENGTH};

/// What is counted of a trail.
pub struct Figures {
    pub counts: Counts,
    pub programs: u64,
    pub signed: u64,
    /// Bytes of the event files taken in, and of the kept log.
    pub full_bytes: u64,
    pub kept_bytes: u64,
}

impl Figures {
    pub fn new(state: &State) -> Figures {
        let counts = state.trail.counts();
        let of_sort = |sort: Sort| {
            state
                .trail
                .entities()
                .filter(|(_, row)| row.sort == sort)
                .count() as u64
        };
        let signed = of_sort(Sort::SignedObject);
        let kept_records = u64::from(counts.entities) + u64::from(counts.edges) + signed;
        Figures {
            counts,
            programs: of_sort(Sort::Subject),
            signed,
            full_bytes: state
                .taken
                .iter()
                .map(|file| bytes(file.records.into()))
                .sum(),
            kept_bytes: bytes(kept_records),
        }
    }

    /// Accepted events for each kept one.
    pub fn reduction(&self) -> Option<f64> {
        ratio(self.counts.accepted.into(), self.counts.edges.into())
    }

    /// Bytes taken in for each byte of the kept log.
    pub fn byte_reduction(&self) -> Option<f64> {
        ratio(self.full_bytes, self.kept_bytes)
    }

    pub fn versions_per_entity(&self) -> Option<f64> {
        ratio(self.counts.versions.into(), self.counts.entities.into())
    }

    /// If each event made a version.
    pub fn naive_versions_per_entity(&self) -> Option<f64> {
        let naive = u64::from(self.counts.entities) + u64::from(self.counts.accepted);
        ratio(naive, self.counts.entities.into())
    }
}

/// Bytes of an event file with so many records.
fn bytes(records: u64) -> u64 {
    HEADER_LENGTH as u64 + RECORD_LENGTH as u64 * records
}

fn ratio(of: u64, to: u64) -> Option<f64> {
    (of > 0 && to > 0).then(|| of as f64 / to as f64)
}

pub fn run(state: &State, paper: bool) -> Report {
    let figures = Figures::new(state);
    let tables = rows_left::tables(state);
    let mut text = text(state, &figures);
    text.push('\n');
    text.push_str(&rows_left::text(&tables));
    let mut json = json(state, &figures, &tables);
    if paper {
        text.push('\n');
        text.push_str(&paper::text(&figures));
        json.insert("paper".to_string(), paper::json(&figures));
    }
    Report::new(text, json.into())
}

fn text(state: &State, figures: &Figures) -> String {
    let counts = figures.counts;
    let recordings = show::count(state.taken.len() as u64, "recording", "recordings");
    let [full, log] = [figures.full_bytes, figures.kept_bytes].map(show::number);
    let [accepted, kept, versions] =
        [counts.accepted, counts.edges, counts.versions].map(|count| show::number(count.into()));
    let kept = format!("{kept}{}", fewer(figures.reduction()));
    let log = format!("{log} bytes{}", fewer(figures.byte_reduction()));
    let each = figures.versions_per_entity();
    let each = each.map_or(String::new(), |each| format!(", {each:.2} an entity"));
    let none = || "none".to_string();
    let start = state.start.map_or_else(none, |start| start.to_string());
    let last = match counts.accepted {
        0 => none(),
        _ => show::time(state, counts.last),
    };
    let lines = [
        ("events accepted", accepted),
        ("events kept", kept),
        (
            "taken in",
            format!("{recordings}, event files of {full} bytes"),
        ),
        ("kept log", log),
        ("entities", entities(figures)),
        ("versions", format!("{versions}{each}")),
        ("start", start),
        ("last event", last),
    ];
    let line = |(what, figure)| format!("{what:<17}{figure}\n");
    lines.map(line).concat()
}

fn fewer(ratio: Option<f64>) -> String {
    ratio.map_or(String::new(), |ratio| format!(", {ratio:.1} times fewer"))
}

fn entities(figures: &Figures) -> String {
    let all = u64::from(figures.counts.entities);
    let files = show::count(all - figures.programs, "file", "files");
    let signed = match figures.signed {
        0 => String::new(),
        signed => format!(" ({} signed)", show::number(signed)),
    };
    let programs = show::count(figures.programs, "program", "programs");
    format!("{}: {files}{signed}, {programs}", show::number(all))
}

fn json(state: &State, figures: &Figures, tables: &[Table]) -> Map<String, Value> {
    let counts = figures.counts;
    let mut members = Map::new();
    let mut insert = |key: &str, value: Value| members.insert(key.to_string(), value);
    insert("accepted", json!(counts.accepted));
    insert("kept", json!(counts.edges));
    insert("reduction", json!(figures.reduction()));
    insert("entities", json!(counts.entities));
    insert("programs", json!(figures.programs));
    insert(
        "files",
        json!(u64::from(counts.entities) - figures.programs),
    );
    insert("signed_files", json!(figures.signed));
    insert("versions", json!(counts.versions));
    insert("versions_per_entity", json!(figures.versions_per_entity()));
    insert("recordings", json!(state.taken.len()));
    insert("full_bytes", json!(figures.full_bytes));
    insert("kept_bytes", json!(figures.kept_bytes));
    insert("start", json!(state.start.map(|start| start.to_string())));
    insert("tables", rows_left::json(tables));
    show::insert_time(&mut members, "last", "last_moment", state, counts.last);
    members
}

#[cfg(test)]
mod tests;
