//! Deletes the files of a recording that is in the trail.

use crate::failure::{Exit, Failure};
use crate::path::shown;
use crate::recording::Recording;
use crate::state::Digest;
use std::fs;
use std::io::ErrorKind;
use std::path::{Path, PathBuf};

/// Deletes the files of a recording if they hold what was taken in, and notes each. The event file goes first: without its names it
/// would be another recording.
pub fn remove(file: &Path, digest: &Digest, removed: &mut Vec<PathBuf>) -> Result<(), Failure> {
    if is_gone(file) {
        return Ok(());
    }
    let recording = Recording::read(file)?;
    if recording.digest() != *digest {
        let message = format!(
            "{} changed after it was taken in, and was not deleted",
            shown(file)
        );
        return Err(Failure::new(Exit::Refused, message));
    }
    for file in recording.paths.all() {
        match fs::remove_file(file) {
            Ok(()) => removed.push(file.to_path_buf()),
            Err(error) if error.kind() == ErrorKind::NotFound => {}
            Err(error) => {
                let doing = format!("the trail holds it, but cannot delete {}", shown(file));
                return Err(Failure::io(doing, error));
            }
        }
    }
    Ok(())
}

/// Given twice, or deleted by someone else.
fn is_gone(file: &Path) -> bool {
    fs::symlink_metadata(file).is_err_and(|error| error.kind() == ErrorKind::NotFound)
}

#[cfg(test)]
mod tests;
