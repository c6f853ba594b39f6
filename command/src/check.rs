//! `trail check`: whether the trail is whole.

mod deep;

use crate::failure::Failure;
use crate::folder;
use crate::path::shown;
use crate::report::Report;
use crate::show;
use crate::state::State;
use crate::take::counts_json;
use serde_json::json;
use std::path::Path;

/// To read the state is to test its checksum, tables and names.
pub fn run(dir: &Path, deep: bool) -> Result<Report, Failure> {
    let state = folder::read(dir)?;
    let traces = match deep {
        true => Some(deep::check(&state)?),
        false => None,
    };
    let mut text = format!(
        "{}: the checksum is right, the tables are sound, each name is its own\n{}",
        shown(dir),
        rows(&state)
    );
    if let Some(traces) = traces {
        text.push_str(&format!(
            "its kept log, taken into a fresh trail, gives the same names, entities and kept events, and the same {}\n",
            show::count(traces, "trace", "traces")
        ));
    }
    let json = json!({
        "checksum": true,
        "sound": true,
        "counts": counts_json(state.trail.counts()),
        "files": state.taken.len(),
        "traces": traces,
    });
    Ok(Report::new(text, json))
}

fn rows(state: &State) -> String {
    let counts = state.trail.counts();
    format!(
        "{}, {}, {}, {}; {} taken in\n",
        show::count(counts.entities.into(), "entity", "entities"),
        show::count(counts.versions.into(), "version", "versions"),
        show::count(counts.edges.into(), "kept event", "kept events"),
        show::count(counts.accepted.into(), "event", "events"),
        show::count(state.taken.len() as u64, "file", "files"),
    )
}
