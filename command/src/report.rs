//! What a subcommand says: text for people and one JSON value for programs, and a failure if not all was done.

use crate::failure::Failure;
use serde_json::Value;

#[derive(Debug)]
pub struct Report {
    /// Lines for standard output, each ended by a newline.
    pub text: String,
    pub json: Value,
    pub failure: Option<Failure>,
}

impl Report {
    pub fn new(text: String, json: Value) -> Report {
        Report {
            text,
            json,
            failure: None,
        }
    }

    /// Of a long answer only what is printed is made.
    pub fn either(
        json: bool,
        text: impl FnOnce() -> String,
        value: impl FnOnce() -> Value,
    ) -> Report {
        match json {
            true => Report::new(String::new(), value()),
            false => Report::new(text(), Value::Null),
        }
    }
}
