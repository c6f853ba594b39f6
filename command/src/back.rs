//! `trail back`: what stands behind an entity.

use crate::answer::{asked, asked_json, refused, Shown};
use crate::cli::{At, Choice};
use crate::failure::Failure;
use crate::find::find;
use crate::report::Report;
use crate::state::State;
use crate::{at, show};
use serde_json::Map;
use std::ffi::OsStr;

pub fn run(
    state: &State,
    name: &OsStr,
    at: &At,
    choice: &Choice,
    json: bool,
) -> Result<Report, Failure> {
    let time = at::time(state, at)?;
    let found = find(state, name, time)?;
    let trace = state.trail.backward(found.entity, time).map_err(refused)?;
    let behind = trace.entities().filter(|entity| *entity != found.entity);
    let behind = Shown::new(state, choice, behind.collect());

    let text = || {
        let heading = format!("{} at {}", asked(state, &found), show::time(state, time));
        format!("{heading}: {}\n{}", words(&behind), behind.lines())
    };
    let value = || {
        let mut members = Map::new();
        members.insert("entity".to_string(), asked_json(state, &found).into());
        show::insert_time(&mut members, "time", "moment", state, time);
        members.insert("count".to_string(), trace.count().into());
        members.insert("behind".to_string(), behind.json());
        members.into()
    };
    Ok(Report::either(json, text, value))
}

fn words(behind: &Shown) -> String {
    if behind.is_empty() {
        return "nothing stands behind it".to_string();
    }
    let verb = if behind.is_one() { "stands" } else { "stand" };
    format!("{} {verb} behind it {}", behind.count(), behind.sorts())
}

#[cfg(test)]
mod tests;
