//! What the trials share: recordings, the command run, the state file read from outside, and a plain model of the answers.

pub mod answers;
pub mod compare;
pub mod folder;
pub mod model;
pub mod nights;
pub mod random;
pub mod recording;
pub mod recordings;
pub mod removal;
pub mod run;
pub mod state_file;
pub mod strace;

use std::io::Write;

/// Prints a line past the capture of the test's output: counts, and what was not run.
pub fn say(line: &str) {
    let _ = writeln!(std::io::stdout(), "{line}");
}
