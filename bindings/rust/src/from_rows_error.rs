//! Why rows make no trail.

use crate::Refusal;
use std::error::Error;
use std::fmt;
use std::io;

/// Why there is no trail of the rows given.
#[derive(Debug)]
pub enum FromRowsError {
    /// The library refuses the counts and rows as not sound.
    Unsound,
    /// The thread for the library cannot be started.
    Thread(io::Error),
}

impl fmt::Display for FromRowsError {
    fn fmt(&self, f: &mut fmt::Formatter<'_>) -> fmt::Result {
        match self {
            FromRowsError::Unsound => Refusal::Unsound.text().fmt(f),
            FromRowsError::Thread(_) => "the thread for the library cannot be started".fmt(f),
        }
    }
}

impl Error for FromRowsError {
    fn source(&self) -> Option<&(dyn Error + 'static)> {
        match self {
            FromRowsError::Unsound => None,
            FromRowsError::Thread(error) => Some(error),
        }
    }
}
