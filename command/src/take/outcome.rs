//! What became of each file, for people and in JSON.

use super::Taking;
use crate::failure::{Exit, Failure};
use crate::path::{json_member, shown, with_file};
use crate::report::Report;
use crate::show;
use crate::state::{Digest, TakenFile};
use serde_json::{json, Map, Value};
use std::collections::HashSet;
use std::path::PathBuf;
use trail::Counts;

pub enum Outcome {
    Taken(Digest, Gain),
    TakenBefore(TakenFile),
    Failed {
        result: &'static str,
        details: Map<String, Value>,
    },
}

/// What a recording added to the trail.
pub struct Gain {
    records: u32,
    events: u32,
    kept: u32,
    entities: u32,
}

impl Gain {
    pub fn between(before: Counts, after: Counts, records: u32) -> Gain {
        Gain {
            records,
            events: after.accepted - before.accepted,
            kept: after.edges - before.edges,
            entities: after.entities - before.entities,
        }
    }
}

impl Outcome {
    pub fn failed(failure: &Failure) -> Outcome {
        let result = match failure.exit {
            Exit::InputOutput => "unreadable",
            _ => "refused",
        };
        let mut details = failure.details.clone();
        details
            .entry("reason")
            .or_insert_with(|| json!(failure.message));
        Outcome::Failed { result, details }
    }

    fn text(&self) -> String {
        match self {
            Outcome::Taken(_, gain) => {
                let events = show::count(gain.events.into(), "event", "events");
                let entities = show::count(gain.entities.into(), "new entity", "new entities");
                format!(
                    "{events} taken in, {} kept, {entities}",
                    show::number(gain.kept.into())
                )
            }
            Outcome::TakenBefore(before) => {
                format!("taken before, as {}", show::name(&before.name))
            }
            Outcome::Failed { result, .. } => result.to_string(),
        }
    }

    fn json(&self) -> Value {
        match self {
            Outcome::Taken(_, gain) => json!({
                "result": "taken",
                "records": gain.records,
                "events": gain.events,
                "kept": gain.kept,
                "entities": gain.entities,
            }),
            Outcome::TakenBefore(before) => json!({
                "result": "taken before",
                "records": before.records,
                "events": before.events,
            }),
            Outcome::Failed { result, details } => {
                let mut members = details.clone();
                members.insert("result".to_string(), json!(result));
                Value::Object(members)
            }
        }
    }
}

impl Taking<'_> {
    /// A failure at a file, and what that means for the others.
    pub fn with_others(&self, mut failure: Failure) -> Failure {
        let tried = self.outcomes.len();
        let before = tried - 1;
        let after = self.files.len() - tried;
        let mut others = Vec::new();
        if before > 0 {
            let is = if before == 1 { "is" } else { "are" };
            others.push(format!(
                "{} before it {is} in the trail",
                show::count(before as u64, "file", "files")
            ));
        }
        if after > 0 {
            let was = if after == 1 { "was" } else { "were" };
            others.push(format!(
                "{} after it {was} not tried",
                show::count(after as u64, "file", "files")
            ));
        }
        if !others.is_empty() {
            failure.message = format!("{}\nThe {}.", failure.message, others.join("; the "));
        }
        let (key, file) = json_member(&self.files[before]);
        failure.with(key, file)
    }

    pub fn report(self, removed: &[PathBuf]) -> Report {
        let gone: HashSet<&PathBuf> = removed.iter().collect();
        let mut text = String::new();
        let mut files = Vec::new();
        let mut committed = Vec::new();
        for (index, file) in self.files.iter().enumerate() {
            let outcome = self.outcomes.get(index);
            let said = outcome.map_or("not tried".to_string(), Outcome::text);
            let deleted = if gone.contains(file) { "; deleted" } else { "" };
            text.push_str(&format!("{}: {said}{deleted}\n", shown(file)));
            let not_tried = || json!({ "result": "not tried" });
            files.push(with_file(
                file,
                outcome.map_or_else(not_tried, Outcome::json),
            ));
            if let Some(Outcome::Taken(..)) = outcome {
                committed.push(with_file(file, json!({})));
            }
        }
        text.push_str(&self.summary());
        let removed: Vec<_> = removed
            .iter()
            .map(|file| with_file(file, json!({})))
            .collect();
        let counts = counts_json(self.state.trail.counts());
        let json =
            json!({ "files": files, "committed": committed, "removed": removed, "counts": counts });
        Report {
            text,
            json,
            failure: self.failure,
        }
    }

    fn summary(&self) -> String {
        let counts = self.state.trail.counts();
        let entities = show::count(counts.entities.into(), "entity", "entities");
        let events = show::count(counts.accepted.into(), "event", "events");
        let last = match counts.accepted {
            0 => String::new(),
            _ => format!(", the last at {}", show::time(&self.state, counts.last)),
        };
        format!(
            "the trail: {entities}, {events}, {} kept{last}\n",
            show::number(counts.edges.into())
        )
    }
}

pub fn counts_json(counts: Counts) -> Value {
    json!({
        "entities": counts.entities,
        "versions": counts.versions,
        "edges": counts.edges,
        "accepted": counts.accepted,
        "last": counts.last.0,
    })
}
