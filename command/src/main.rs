//! `trail`: keeps the provenance of a scoring server.

mod answer;
mod at;
mod back;
mod check;
mod choice;
mod cli;
mod completions;
mod entities;
mod failure;
mod find;
mod folder;
mod forward;
mod full;
mod grow;
mod init;
mod join;
mod list;
mod log;
mod moment;
mod names;
mod output;
mod paper;
mod path;
mod pattern;
mod progress;
mod recording;
mod refused;
mod report;
mod rows_left;
#[cfg(test)]
mod sample;
mod shift;
mod show;
mod sign;
mod state;
mod stats;
mod take;
mod typed;

use clap::error::ErrorKind;
use clap::Parser;
use cli::{Cli, Command};
use failure::{Exit, Failure};
use report::Report;
use serde_json::{json, Value};
use std::env;
use std::process::ExitCode;

fn main() -> ExitCode {
    let (outcome, json) = match Cli::try_parse() {
        Ok(cli) => (run(&cli), cli.json),
        Err(error) => (not_parsed(&error), asks_json()),
    };
    let report = outcome.unwrap_or_else(|failure| Report {
        text: String::new(),
        json: Value::Null,
        failure: Some(failure),
    });
    let text = match json {
        true => format!("{}\n", one_value(&report)),
        false => report.text,
    };
    output::finish(&text, report.failure.as_ref(), json)
}

fn run(cli: &Cli) -> Result<Report, Failure> {
    let (dir, json) = (cli.trail.as_path(), cli.json);
    match &cli.command {
        Command::Init { start } => init::run(dir, start.as_deref()),
        Command::Take { files, remove } => take::run(dir, files, *remove),
        Command::Back { name, at, choice } => {
            folder::ask(dir, |state| back::run(&state, name, at, choice, json))
        }
        Command::Forward { names, at, choice } => {
            folder::ask(dir, |state| forward::run(&state, names, at, choice, json))
        }
        Command::List { choice } => folder::ask(dir, |state| Ok(list::run(&state, choice, json))),
        Command::Stats { paper } => folder::ask(dir, |state| Ok(stats::run(&state, *paper))),
        Command::Sign { names } => sign::run(dir, names),
        Command::Log { out } => log::run(dir, out),
        Command::Check { deep } => check::run(dir, *deep),
        Command::Completions { shell } => Ok(completions::run(*shell)),
    }
}

/// Help and version are what was asked for; anything else is wrong usage.
fn not_parsed(error: &clap::Error) -> Result<Report, Failure> {
    let text = error.to_string();
    match error.kind() {
        ErrorKind::DisplayHelp => Ok(Report::new(text.clone(), json!({ "help": text }))),
        ErrorKind::DisplayVersion => {
            let json = json!({ "version": text.trim_end() });
            Ok(Report::new(text, json))
        }
        ErrorKind::DisplayHelpOnMissingArgumentOrSubcommand => {
            Err(usage(&format!("a command is missing\n\n{text}")))
        }
        _ => Err(usage(text.strip_prefix("error: ").unwrap_or(&text))),
    }
}

/// A message of several lines that may repeat what was typed.
fn usage(message: &str) -> Failure {
    let lines: Vec<String> = message
        .trim_end()
        .lines()
        .map(|line| show::name(line.as_bytes()))
        .collect();
    Failure::new(Exit::Usage, lines.join("\n"))
}

/// Whether `--json` is among arguments that could not be read.
fn asks_json() -> bool {
    env::args_os()
        .skip(1)
        .take_while(|argument| argument != "--")
        .any(|argument| argument == "--json")
}

/// The one value of `--json`: what is reported, with the failure beside it.
fn one_value(report: &Report) -> Value {
    let Some(failure) = &report.failure else {
        return report.json.clone();
    };
    let mut value = failure.to_json();
    if let (Some(value), Some(reported)) = (value.as_object_mut(), report.json.as_object()) {
        value.extend(reported.clone());
    }
    value
}
