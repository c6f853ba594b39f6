//! `trail log`: the kept log, with its names and start.

use crate::failure::{Exit, Failure};
use crate::folder::{self, sync_folder};
use crate::path::{folder_of, shown, with_file};
use crate::recording::{Paths, Recording};
use crate::report::Report;
use crate::show;
use crate::state::State;
use serde_json::json;
use std::ffi::OsString;
use std::fs::{self, File};
use std::io::{self, Write};
use std::path::{Path, PathBuf};

pub fn run(dir: &Path, out: &Path) -> Result<Report, Failure> {
    let state = folder::read(dir)?;
    let paths = Paths::of(out);
    for there in paths.all() {
        if fs::symlink_metadata(there).is_ok() {
            let message = format!("{} is there already; nothing was written", shown(there));
            return Err(Failure::new(Exit::Usage, message));
        }
    }
    let log = kept_log(&state, paths);
    write(&log)?;
    let counts = state.trail.counts();
    let text = format!(
        "{}: {}, {}\n",
        shown(out),
        show::count(counts.entities.into(), "entity", "entities"),
        show::count(counts.edges.into(), "kept event", "kept events"),
    );
    let json = json!({
        "entities": counts.entities,
        "events": counts.edges,
        "records": log.records(),
        "bytes": log.file.len(),
        "names": log.names.is_some(),
        "start": state.start.map(|start| start.to_string()),
    });
    Ok(Report::new(text, with_file(out, json)))
}

/// The kept log of a trail as a recording. Without any name it has no names: then its numbers are best left as they are.
pub fn kept_log(state: &State, paths: Paths) -> Recording {
    let names = state.names.text();
    let named = names.iter().any(|byte| *byte != b'\n');
    Recording {
        paths,
        file: state.trail.kept_log(),
        names: named.then_some(names),
        start: state.start.map(|start| format!("{start}\n").into_bytes()),
    }
}

/// Writes the files of a recording under other names first; its event file gets its name last. A failure leaves nothing.
fn write(log: &Recording) -> Result<(), Failure> {
    let mut made = Vec::new();
    let written = write_parts(log, &mut made);
    if written.is_err() {
        for file in made {
            let _ = fs::remove_file(file);
        }
    }
    written
}

fn write_parts(log: &Recording, made: &mut Vec<PathBuf>) -> Result<(), Failure> {
    let Paths { file, names, start } = &log.paths;
    let parts = [
        (names, log.names.as_ref()),
        (start, log.start.as_ref()),
        (file, Some(&log.file)),
    ];
    for (file, bytes) in parts {
        if let Some(bytes) = bytes {
            let new = new_path(file);
            write_new(&new, bytes, made).map_err(|error| cannot_write(&new, error))?;
        }
    }
    for (file, bytes) in parts {
        if bytes.is_some() {
            fs::rename(new_path(file), file).map_err(|error| cannot_write(file, error))?;
            made.push(file.to_path_buf());
        }
    }
    sync_folder(folder_of(file)).map_err(|error| cannot_write(file, error))
}

/// Where a file is written before it gets its name.
fn new_path(file: &Path) -> PathBuf {
    let mut new = OsString::from(file);
    new.push(format!(".{}.new", std::process::id()));
    PathBuf::from(new)
}

fn write_new(new: &Path, bytes: &[u8], made: &mut Vec<PathBuf>) -> io::Result<()> {
    let mut file = File::create_new(new)?;
    made.push(new.to_path_buf());
    file.write_all(bytes)?;
    file.sync_all()
}

fn cannot_write(file: &Path, error: io::Error) -> Failure {
    Failure::io(format!("cannot write {}", shown(file)), error)
}

#[cfg(test)]
mod tests;
