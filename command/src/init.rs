//! `trail init`: an empty trail.

use crate::failure::{Exit, Failure};
use crate::folder::Writer;
use crate::moment::Moment;
use crate::path::shown;
use crate::report::Report;
use crate::state::State;
use serde_json::json;
use std::path::Path;

pub fn run(dir: &Path, start: Option<&str>) -> Result<Report, Failure> {
    let start = start.map(moment).transpose()?;
    let writer = Writer::make(dir)?;
    let state = State::empty(start).map_err(|error| Failure::io("cannot start a thread", error))?;
    writer.commit(&state)?;
    let start = start.map(|start| start.to_string());
    let said = start.as_deref().unwrap_or("that of the first recording");
    let text = format!("made an empty trail in {}; its start: {said}\n", shown(dir));
    Ok(Report::new(text, json!({ "start": start })))
}

fn moment(text: &str) -> Result<Moment, Failure> {
    Moment::parse(text).filter(|moment| moment.may_start()).ok_or_else(|| {
        let message = format!("--start {text}: not a moment of the years 1970 to 2099 such as 2026-11-17T19:20:45.12");
        Failure::new(Exit::Usage, message)
    })
}

#[cfg(test)]
mod tests {
    use super::*;
    use crate::folder;

    #[test]
    fn a_trail_starts_when_it_is_told() {
        let dir = tempfile::tempdir().unwrap();
        let trail = dir.path().join("trail");
        let report = run(&trail, Some("2026-11-17 19:20")).unwrap();
        assert_eq!(report.json, json!({ "start": "2026-11-17T19:20:00.00" }));
        let state = folder::read(&trail).unwrap();
        assert_eq!(state.start, Moment::parse("2026-11-17T19:20"));
        let other = dir.path().join("other");
        assert_eq!(run(&other, None).unwrap().json, json!({ "start": null }));
        assert_eq!(folder::read(&other).unwrap().start, None);
    }

    #[test]
    fn what_is_no_start_makes_nothing() {
        let dir = tempfile::tempdir().unwrap();
        let trail = dir.path().join("trail");
        for start in ["", "noon", "2100-01-01", "1969-12-31", "2026-02-29"] {
            assert_eq!(run(&trail, Some(start)).unwrap_err().exit, Exit::Usage);
            assert!(!trail.exists());
        }
    }
}
