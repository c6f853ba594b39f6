//! The command, run and waited for.

use serde_json::Value;
use std::ffi::OsStr;
use std::os::unix::process::ExitStatusExt;
use std::path::Path;
use std::process::{Command, ExitStatus, Stdio};

pub const DONE: i32 = 0;
pub const NOT_FOUND: i32 = 1;
pub const USAGE: i32 = 2;
pub const REFUSED: i32 = 3;
pub const FULL: i32 = 4;
pub const DAMAGED: i32 = 5;
pub const ANOTHER_WRITER: i32 = 6;
pub const INPUT_OUTPUT: i32 = 7;

/// The built command.
pub const TRAIL: &str = env!("CARGO_BIN_EXE_trail");

/// What a run said, and how it ended.
#[derive(Debug)]
pub struct Run {
    status: ExitStatus,
    pub out: Vec<u8>,
    pub err: Vec<u8>,
}

/// A program that gets nothing on standard input and none of the command's variables.
pub fn program(program: impl AsRef<OsStr>) -> Command {
    let mut command = Command::new(program);
    command.env_remove("TRAIL_DIR").stdin(Stdio::null());
    command
}

/// The command on a trail's folder.
pub fn trail(folder: &Path) -> Command {
    let mut command = program(TRAIL);
    command.arg("--trail").arg(folder);
    command
}

/// Runs it to its end. A panic fails the test, whatever else is expected.
pub fn run(command: &mut Command) -> Run {
    let output = command.output().unwrap();
    let run = Run {
        status: output.status,
        out: output.stdout,
        err: output.stderr,
    };
    run.check_no_panic();
    run
}

impl Run {
    fn check_no_panic(&self) {
        let err = self.err_text();
        assert!(
            self.status.code() != Some(101) && !err.contains("panicked"),
            "panicked: {self:?}"
        );
        let aborted = matches!(self.status.signal(), Some(4 | 6 | 7 | 11));
        assert!(!aborted, "aborted: {self:?}");
    }

    /// The exit code; a run that a signal ended fails the test.
    pub fn code(&self) -> i32 {
        self.status
            .code()
            .unwrap_or_else(|| panic!("ended by a signal: {self:?}"))
    }

    pub fn signal(&self) -> Option<i32> {
        self.status.signal()
    }

    #[track_caller]
    pub fn expect(self, code: i32) -> Run {
        let is = self.status.code();
        assert_eq!(
            is,
            Some(code),
            "exit code; said: {}{}",
            self.out_text(),
            self.err_text()
        );
        self
    }

    pub fn out_text(&self) -> String {
        String::from_utf8_lossy(&self.out).into_owned()
    }

    pub fn err_text(&self) -> String {
        String::from_utf8_lossy(&self.err).into_owned()
    }

    /// The one JSON value on standard output.
    #[track_caller]
    pub fn json(&self) -> Value {
        match serde_json::from_slice(&self.out) {
            Ok(value) => value,
            Err(error) => panic!("not one JSON value ({error}): {:?}", self.out_text()),
        }
    }

    /// The failure in the JSON value: its exit code is that of the process, and it has a message.
    #[track_caller]
    pub fn error(&self) -> Value {
        let error = self.json()["error"].clone();
        assert_eq!(error["exit"], self.code(), "{error}");
        assert!(!error["message"].as_str().unwrap().is_empty());
        error
    }

    /// Whether the text, in small letters, holds each of the words.
    #[track_caller]
    pub fn says(&self, words: &[&str]) {
        let text = format!("{}{}", self.out_text(), self.err_text()).to_lowercase();
        for word in words {
            assert!(
                text.contains(&word.to_lowercase()),
                "{word:?} is not in: {text}"
            );
        }
    }

    /// No byte reaches the terminal that is not text, or as a control character.
    #[track_caller]
    pub fn expect_plain(&self) {
        for bytes in [&self.out, &self.err] {
            let text = std::str::from_utf8(bytes).expect("text for people is UTF-8");
            let is_plain = |character: char| character == '\n' || !character.is_control();
            assert!(text.chars().all(is_plain), "{text:?}");
        }
    }
}
