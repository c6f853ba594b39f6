//! The arguments of the command.

use clap::{Args, Parser, Subcommand, ValueEnum};
use std::ffi::OsString;
use std::path::PathBuf;

/// Keeps the provenance of a scoring server: takes recordings in, tells what stands behind a file
/// and what it reached, and writes the kept log, after which the full logs may be deleted.
#[derive(Debug, Parser)]
#[command(name = "trail", version, max_term_width = 100, verbatim_doc_comment)]
#[command(after_help = "\
Exit codes:
  0  Done
  1  Not found, or ambiguous
  2  Wrong usage
  3  Input refused
  4  Full
  5  Damaged
  6  Another writer
  7  Input or output failed

Example, for each day:
  trail take --remove /var/spool/trail/*.slt
  trail stats

The manual trail(1) says more: what a name stands for, the times, the files, the JSON.")]
pub struct Cli {
    /// The folder of the trail
    #[arg(
        short,
        long,
        global = true,
        value_name = "DIR",
        env = "TRAIL_DIR",
        default_value = ".trail",
        hide_env_values = true,
        display_order = 100
    )]
    pub trail: PathBuf,

    /// Print one JSON value in place of text
    #[arg(long, global = true, display_order = 101)]
    pub json: bool,

    #[command(subcommand)]
    pub command: Command,
}

#[derive(Debug, Subcommand)]
pub enum Command {
    /// Make an empty trail
    Init {
        /// Moment of time 0 (UTC), as 2026-11-17T19:20:45.12 [default: the first recording's]
        #[arg(long, value_name = "MOMENT")]
        start: Option<String>,
    },
    /// Take recordings in, each as a whole or not at all
    Take {
        /// Event files; the .names and the .start beside each are read too
        #[arg(required = true, value_name = "FILE")]
        files: Vec<PathBuf>,
        /// Delete each recording once the trail that holds it is safe on disk
        #[arg(long)]
        remove: bool,
    },
    /// List what stands behind an entity
    #[command(after_help = "\
Files come first, then programs, each by name.

Examples:
  trail back reports/night-2.txt
  trail back --at 2026-11-17T19:20 --only 'studies/*' reports/night-2.txt")]
    Back {
        /// File or program: its name, the end of its path, or '#N' for entity N
        name: OsString,
        #[command(flatten)]
        at: At,
        #[command(flatten)]
        choice: Choice,
    },
    /// List what one or more entities reached
    #[command(after_help = "\
What counts is what they reached since their last kept intake, the last event into them that was
kept, at or before the time asked about: what their contents by then reached. Ask with --at 0 for
all that they ever reached. Files come first, then programs, each by name.

Examples:
  trail forward studies/night-1.edf
  trail forward --only 'reports/*' studies/night-1.edf studies/night-2.edf")]
    Forward {
        /// Files or programs: their names, the ends of their paths, or '#N' for entity N
        #[arg(required = true, value_name = "NAME")]
        names: Vec<OsString>,
        #[command(flatten)]
        at: At,
        #[command(flatten)]
        choice: Choice,
    },
    /// List the entities with their sort, versions and events
    List {
        #[command(flatten)]
        choice: Choice,
    },
    /// Tell how much was kept, and how many rows are left
    Stats {
        /// Beside the figures of the paper whose version building this is
        #[arg(long)]
        paper: bool,
    },
    /// Sign files, so that nothing more may be written into them
    Sign {
        /// Files: their names, the ends of their paths, or '#N' for entity N
        #[arg(required = true, value_name = "NAME")]
        names: Vec<OsString>,
    },
    /// Write the kept log, with its names and start beside it
    Log {
        /// The event file to write; a file that is there already is left alone
        #[arg(value_name = "OUT.slt")]
        out: PathBuf,
    },
    /// Check that the trail is whole
    Check {
        /// Take the kept log in again, and compare entities, events and traces
        #[arg(long)]
        deep: bool,
    },
    /// Print a completion script for a shell
    Completions {
        /// The shell that the script is for
        shell: Shell,
    },
}

#[derive(Debug, Args)]
pub struct At {
    /// Moment (UTC), or hundredths since the start [default: the last event's]
    #[arg(long, value_name = "TIME")]
    pub at: Option<String>,
}

/// Which entities of an answer to show.
#[derive(Debug, Default, Args)]
pub struct Choice {
    /// Show only names that fit, as 'reports/*'; * is any characters, ? is one
    #[arg(long, value_name = "PATTERN")]
    pub only: Option<OsString>,
    /// Show only files, pipes and sockets
    #[arg(long, conflicts_with = "programs")]
    pub files: bool,
    /// Show only programs
    #[arg(long)]
    pub programs: bool,
}

#[derive(Clone, Copy, Debug, ValueEnum)]
pub enum Shell {
    Bash,
    Elvish,
    Fish,
    Powershell,
    Zsh,
}
