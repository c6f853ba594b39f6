//! The command under strace, which lists its calls, ends it at one of them, stops it there or lets one fail.

use super::run::program;
use std::collections::HashMap;
use std::fs;
use std::path::Path;
use std::process::{Command, Stdio};

/// The calls on files and descriptors.
pub const ON_FILES: &str = "%file,%desc";

/// A call of the main thread: the so many-th of its name.
#[derive(Clone, Debug)]
pub struct Call {
    pub name: String,
    pub number: usize,
    pub text: String,
}

/// Whether strace is here and may trace.
pub fn works() -> bool {
    let mut strace = Command::new("strace");
    strace
        .args(["-f", "-o", "/dev/null", "true"])
        .stderr(Stdio::null());
    strace.status().is_ok_and(|status| status.success())
}

/// The same command under strace, which writes these calls to a file, descriptors with their paths.
pub fn traced(command: &Command, calls: &str, log: &Path) -> Command {
    let mut strace = program("strace");
    strace
        .args(["-f", "-y", "-s", "0", "-e", &format!("trace={calls}"), "-o"])
        .arg(log);
    strace.arg(command.get_program()).args(command.get_args());
    if let Some(folder) = command.get_current_dir() {
        strace.current_dir(folder);
    }
    strace
}

/// The same command under strace, which does `what` at one call: a signal, or an error in its place.
pub fn tampered(command: &Command, name: &str, number: usize, what: &str, log: &Path) -> Command {
    let traced = traced(command, name, log);
    let mut strace = program("strace");
    strace
        .args(["-e", &format!("inject={name}:{what}:when={number}")])
        .args(traced.get_args());
    if let Some(folder) = command.get_current_dir() {
        strace.current_dir(folder);
    }
    strace
}

/// The calls of the main thread in a log of strace, from the first that has these words on. Those of the allocator, which reads
/// from /proc in some runs, are left out.
pub fn calls(log: &Path, from: &str) -> Vec<Call> {
    let text = fs::read_to_string(log).unwrap();
    let thread = text.split(' ').next().unwrap();
    let mut numbers = HashMap::new();
    let mut calls = Vec::new();
    for line in text
        .lines()
        .filter(|line| line.starts_with(thread) && !line.contains("resumed>"))
    {
        let Some((before, _)) = line.split_once('(') else {
            continue;
        };
        let name = before.rsplit(' ').next().unwrap().to_string();
        let number = numbers.entry(name.clone()).or_insert(0);
        *number += 1;
        let is_allocator = line.contains("/proc/");
        if !is_allocator && (!calls.is_empty() || line.contains(from)) {
            calls.push(Call {
                name,
                number: *number,
                text: line.to_string(),
            });
        }
    }
    calls
}
