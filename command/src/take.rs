//! `trail take`: recordings taken in, in order until the first that is refused, and committed together.

mod outcome;
mod remove;

use crate::failure::Failure;
use crate::folder::{self, Writer};
use crate::grow::grow;
use crate::progress;
use crate::recording::Recording;
use crate::report::Report;
use crate::state::{Digest, State};
pub use outcome::counts_json;
use outcome::{Gain, Outcome};
use std::path::{Path, PathBuf};
use trail::Trail;

pub fn run(dir: &Path, files: &[PathBuf], remove: bool) -> Result<Report, Failure> {
    let writer = Writer::open(dir)?;
    let mut taking = Taking::all(folder::read(dir)?, files)?;
    let is_new = |outcome: &Outcome| matches!(outcome, Outcome::Taken(..));
    if taking.outcomes.iter().any(is_new) {
        writer.commit(&taking.state)?;
    }
    let mut removed = Vec::new();
    if remove {
        // A state that another command was about to sync when it was killed may not be on disk.
        writer.sync()?;
        taking.remove(&mut removed);
    }
    // Until here no one else writes: what was compared and deleted is in the trail.
    drop(writer);
    Ok(taking.report(&removed))
}

struct Taking<'a> {
    state: State,
    files: &'a [PathBuf],
    /// For the files before the one that failed, and for that one.
    outcomes: Vec<Outcome>,
    failure: Option<Failure>,
}

impl Taking<'_> {
    fn all(state: State, files: &[PathBuf]) -> Result<Taking<'_>, Failure> {
        let fresh = Trail::new().map_err(|error| Failure::io("cannot start a thread", error))?;
        let mut taking = Taking {
            state,
            files,
            outcomes: Vec::new(),
            failure: None,
        };
        let bar = progress::bar(files.len(), "files");
        for file in files {
            match taking.take(&fresh, file) {
                Ok(outcome) => taking.outcomes.push(outcome),
                Err(failure) => {
                    taking.outcomes.push(Outcome::failed(&failure));
                    taking.failure = Some(taking.with_others(failure));
                    break;
                }
            }
            bar.inc(1);
        }
        bar.finish_and_clear();
        Ok(taking)
    }

    fn take(&mut self, fresh: &Trail, file: &Path) -> Result<Outcome, Failure> {
        let recording = Recording::read(file)?;
        let digest = recording.digest();
        if let Some(before) = self.state.taken_before(&digest) {
            return Ok(Outcome::TakenBefore(before.clone()));
        }
        let grown = grow(&self.state, fresh, &recording, digest)?;
        let gain = Gain::between(
            self.state.trail.counts(),
            grown.trail.counts(),
            recording.records(),
        );
        self.state = grown;
        Ok(Outcome::Taken(digest, gain))
    }

    /// Deletes what the trail holds on disk.
    fn remove(&mut self, removed: &mut Vec<PathBuf>) {
        for (file, outcome) in self.files.iter().zip(&self.outcomes) {
            let Some(digest) = outcome.digest() else {
                continue;
            };
            if let Err(failure) = remove::remove(file, &digest, removed) {
                self.failure = Some(match self.failure.take() {
                    None => failure,
                    Some(mut first) => {
                        first.message = format!("{}\n{}", first.message, failure.message);
                        first
                    }
                });
            }
        }
    }
}

impl Outcome {
    /// Of a recording that is in the trail.
    fn digest(&self) -> Option<Digest> {
        match self {
            Outcome::Taken(digest, _) => Some(*digest),
            Outcome::TakenBefore(file) => Some(file.digest),
            Outcome::Failed { .. } => None,
        }
    }
}

#[cfg(test)]
mod tests;
