//! What goes to standard output and standard error.

use crate::failure::{Exit, Failure};
use std::io::{self, ErrorKind, Write};
use std::process::ExitCode;

/// Prints what was asked for and how it ended, and says with which code to exit. A reader that has gone away is no failure.
pub fn finish(text: &str, failure: Option<&Failure>, json: bool) -> ExitCode {
    let written = write(text);
    let lost = written.is_err();
    if let Some(failure) = failure.filter(|_| !json || lost) {
        say(&failure.message);
    }
    match (written, failure) {
        (Err(error), _) => {
            say(&format!("cannot write: {error}"));
            ExitCode::from(Exit::InputOutput as u8)
        }
        (Ok(()), Some(failure)) => ExitCode::from(failure.exit as u8),
        (Ok(()), None) => ExitCode::SUCCESS,
    }
}

fn write(text: &str) -> io::Result<()> {
    let mut stdout = io::stdout().lock();
    let written = stdout
        .write_all(text.as_bytes())
        .and_then(|()| stdout.flush());
    match written {
        Err(error) if error.kind() == ErrorKind::BrokenPipe => Ok(()),
        other => other,
    }
}

/// A message for people. If it cannot be written, there is nobody to tell.
fn say(message: &str) {
    let _ = writeln!(io::stderr().lock(), "trail: {message}");
}
