//! Measures the library's archive beside a peer and a floor, and prints
//! ratios from one run. `bench` takes no parameters.

mod batches;
mod clock;
mod files;
mod floor;
mod growth;
mod library;
mod line;
mod measure;
mod readers;
mod real;
mod report;
mod studies;
mod traces;
mod worst;

use batches::{from_fresh, FullTrail, FULL, MILLION, STAGERS};
use growth::Growth;
use line::{Goal, Line};
use readers::{FEW_OBJECTS, MANY_OBJECTS, MANY_PAIRS};
use std::process::ExitCode;
use std::thread;

/// A batch of the archive takes more than a megabyte of stack.
const STACK_BYTES: usize = 64 << 20;

fn main() -> ExitCode {
    if cfg!(debug_assertions) {
        eprintln!("both sides are to be built for release: cargo run --release");
        return ExitCode::from(2);
    }
    let thread = thread::Builder::new().stack_size(STACK_BYTES).spawn(run);
    match thread.expect("a thread can be started").join() {
        Ok(()) => ExitCode::SUCCESS,
        Err(_) => ExitCode::FAILURE,
    }
}

fn run() {
    report::print_heading();
    let mut lines = Vec::new();
    for measure in [fresh_trails, real::real_files, full_trail, worst::worst] {
        let measured = measure();
        measured.iter().for_each(report::print_line);
        lines.extend(measured);
    }
    let growth = Growth::measured();
    report::print_growth(&growth);
    report::print_studies(&studies::studies());
    report::print_reductions(&real::reductions());
    report::print_goals(&lines, &growth);
}

fn fresh_trails() -> Vec<Line> {
    vec![
        from_fresh("stagers", Goal::RepeatBatch, &STAGERS.file(), 1),
        from_fresh("most events", Goal::Batch, &MILLION.file(), 1),
        from_fresh("both tables filled", Goal::Batch, &FULL.file(), 1),
        from_fresh(
            "20 objects read by 100 subjects",
            Goal::Batch,
            &FEW_OBJECTS.over_and_over(),
            1,
        ),
        from_fresh(
            "100 objects read by 500 subjects",
            Goal::Batch,
            &MANY_PAIRS.over_and_over(),
            1,
        ),
        from_fresh(
            "1,000 objects read by 2,048 subjects",
            Goal::Batch,
            &MANY_OBJECTS.once_each(),
            1,
        ),
    ]
}

fn full_trail() -> Vec<Line> {
    let mut trail = FullTrail::grown();
    let mut lines = trail.small_batches(40, 10);
    lines.extend(trail.small_batches(10, 1_000));
    lines.extend(trail.traces());
    lines.extend(trail.other_calls());
    lines
}
