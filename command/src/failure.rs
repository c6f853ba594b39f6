//! Why the command did not do what it was asked: an exit code and a line for people.

use serde_json::{json, Map, Value};
use std::io;

/// The exit codes, 0 aside.
#[derive(Clone, Copy, Debug, PartialEq, Eq)]
pub enum Exit {
    NotFound = 1,
    Usage = 2,
    Refused = 3,
    Full = 4,
    Damaged = 5,
    AnotherWriter = 6,
    InputOutput = 7,
}

#[derive(Debug)]
pub struct Failure {
    pub exit: Exit,
    /// What happened, for people; more lines may follow the first.
    pub message: String,
    /// What a program wants to know beside the message.
    pub details: Map<String, Value>,
}

impl Failure {
    pub fn new(exit: Exit, message: impl Into<String>) -> Failure {
        Failure {
            exit,
            message: message.into(),
            details: Map::new(),
        }
    }

    /// An input or output error, with what was being done: `cannot read night1.slt`.
    pub fn io(doing: impl std::fmt::Display, error: io::Error) -> Failure {
        Failure::new(Exit::InputOutput, format!("{doing}: {error}"))
    }

    pub fn with(mut self, key: &str, value: impl Into<Value>) -> Failure {
        self.details.insert(key.to_string(), value.into());
        self
    }

    pub fn to_json(&self) -> Value {
        let mut error = self.details.clone();
        error.insert("exit".to_string(), json!(self.exit as u8));
        error.insert("message".to_string(), json!(self.message));
        json!({ "error": error })
    }
}
