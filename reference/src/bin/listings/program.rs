//! The listing program, run with a file on its standard input.

use std::env;
use std::fmt;
use std::io::{ErrorKind, Write};
use std::path::{Path, PathBuf};
use std::process::{Child, Command, Stdio};
use std::thread;
use std::time::Duration;

/// Between two pieces of a file, so that the program reads them one by one.
const PAUSE: Duration = Duration::from_millis(2);

/// What the program printed, and whether it ended by itself.
#[derive(PartialEq, Eq)]
pub struct Listing {
    text: Vec<u8>,
    ended: bool,
}

impl Listing {
    pub fn ended_normally(text: &[u8]) -> Listing {
        Listing {
            text: text.to_vec(),
            ended: true,
        }
    }
}

impl fmt::Display for Listing {
    fn fmt(&self, to: &mut fmt::Formatter) -> fmt::Result {
        let ending = if self.ended { "ended" } else { "was stopped" };
        write!(to, "{ending}\n{}", String::from_utf8_lossy(&self.text))
    }
}

pub struct Program {
    path: PathBuf,
}

impl Program {
    pub fn new() -> Program {
        let package = Path::new(env!("CARGO_MANIFEST_DIR"));
        let path = match env::var_os("TRAIL_LISTING") {
            Some(path) => PathBuf::from(path),
            None => package.join("../target/bin/listing"),
        };
        Program { path }
    }

    /// Runs the program on the pieces of a file, written one by one.
    pub fn run(&self, pieces: &[&[u8]]) -> Result<Listing, String> {
        let run = self.start().and_then(|mut child| {
            write_pieces(&mut child, pieces)?;
            child.wait_with_output()
        });
        let output = run.map_err(|error| format!("{}: {error}", self.path.display()))?;
        Ok(Listing {
            text: output.stdout,
            ended: output.status.code().is_some(),
        })
    }

    fn start(&self) -> std::io::Result<Child> {
        Command::new(&self.path)
            .stdin(Stdio::piped())
            .stdout(Stdio::piped())
            .spawn()
    }
}

/// Writes the pieces and closes the input. A program that stops reading a
/// file too long closes it first, which is no error.
fn write_pieces(child: &mut Child, pieces: &[&[u8]]) -> std::io::Result<()> {
    let mut input = child.stdin.take().expect("the input is piped");
    for (number, piece) in pieces.iter().enumerate() {
        if number > 0 {
            thread::sleep(PAUSE);
        }
        match input.write_all(piece) {
            Err(error) if error.kind() == ErrorKind::BrokenPipe => return Ok(()),
            written => written?,
        }
    }
    Ok(())
}
