//! `trail sign`: files into which nothing more may be written.

use crate::failure::{Exit, Failure};
use crate::find;
use crate::folder::{self, Writer};
use crate::report::Report;
use crate::show;
use crate::state::State;
use serde_json::json;
use std::ffi::OsString;
use std::path::Path;
use trail::{EntityNo, EventFile, Refusal, RefusedBatch};

pub fn run(dir: &Path, names: &[OsString]) -> Result<Report, Failure> {
    let writer = Writer::open(dir)?;
    let mut state = folder::read(dir)?;
    let last = state.trail.counts().last;
    let find = |name: &OsString| find::entity(&state, name, last);
    let entities = names.iter().map(find).collect::<Result<Vec<_>, _>>()?;
    let mut file = EventFile::new();
    for entity in &entities {
        file.sign(entity.0 as u16);
    }
    let mut trail = state.trail.clone();
    trail
        .batch(file.as_bytes())
        .map_err(|refused| failure(&state, &entities, refused))?;
    state.trail = trail;
    writer.commit(&state)?;
    let text = entities
        .iter()
        .map(|entity| format!("{}: signed\n", show::entity(&state, *entity)))
        .collect();
    let signed: Vec<_> = entities
        .iter()
        .map(|entity| show::entity_json(&state, *entity))
        .collect();
    Ok(Report::new(text, json!({ "signed": signed })))
}

/// Each record signs the entity of its place.
fn failure(state: &State, entities: &[EntityNo], refused: RefusedBatch) -> Failure {
    let refusal = refused.refusal;
    let at = entities.get((refused.record as usize).wrapping_sub(1));
    let what = at.map_or("the signatures".to_string(), |entity| {
        show::entity(state, *entity)
    });
    let reason = match refusal {
        Refusal::WrongSort => "it is a program, and only files are signed",
        Refusal::Signed => "it is signed already, or named twice",
        other => other.text(),
    };
    let exit = match refusal {
        Refusal::Unsound => Exit::Damaged,
        _ => Exit::Refused,
    };
    let message = format!(
        "{what}: refused, {}: {reason}; nothing was signed",
        refusal.number()
    );
    Failure::new(exit, message)
        .with("refusal", refusal.number())
        .with("reason", reason)
}

#[cfg(test)]
mod tests;
