//! Runs the listing program on many files by standard input and compares what
//! it prints with the reference's listing.
//!
//! `listings [SEED]` runs `../target/bin/listing`, or the program that
//! `TRAIL_LISTING` names. It ends with status 1 at the first difference, or if
//! a refusal that can occur in a listing never did.

mod files;
mod program;

use program::{Listing, Program};
use reference::{listing, Random};
use std::collections::BTreeMap;
use std::env;
use std::process::ExitCode;

const DEFAULT_SEED: u64 = 1;
/// One in this many files is written in pieces.
const PIECES_ONE_IN: usize = 4;
/// With 2,730 rows in each table no file of 32,768 bytes is refused for want
/// of a row.
const ENDINGS: [&str; 12] = [
    "too long",
    "taken in",
    "refused 1",
    "refused 2",
    "refused 3",
    "refused 4",
    "refused 5",
    "refused 6",
    "refused 7",
    "refused 8",
    "refused 9",
    "refused 17",
];

fn main() -> ExitCode {
    let words: Vec<String> = env::args().skip(1).collect();
    let seed = match words.as_slice() {
        [] => Some(DEFAULT_SEED),
        [seed] => seed.parse().ok(),
        _ => None,
    };
    let Some(seed) = seed else {
        eprintln!("listings [SEED]");
        return ExitCode::from(2);
    };
    match compare(seed) {
        Ok(()) => ExitCode::SUCCESS,
        Err(text) => {
            println!("{text}");
            ExitCode::FAILURE
        }
    }
}

fn compare(seed: u64) -> Result<(), String> {
    let mut random = Random::new(seed);
    let program = Program::new();
    let mut seen: BTreeMap<String, u32> = BTreeMap::new();
    for (number, file) in files::files(&mut random).iter().enumerate() {
        let pieces = pieces(&mut random, file);
        let printed = program.run(&pieces)?;
        let expected = listing(file);
        if printed != Listing::ended_normally(&expected) {
            let place = format!("file {number} of seed {seed}, {} bytes", file.len());
            return Err(difference(&place, &printed, &expected));
        }
        *seen.entry(ending(&expected)).or_default() += 1;
    }
    finish(&seen)
}

/// The file whole, or in up to four pieces.
fn pieces<'a>(random: &mut Random, file: &'a [u8]) -> Vec<&'a [u8]> {
    if !random.one_in(PIECES_ONE_IN) {
        return vec![file];
    }
    let mut places = [0; 3].map(|_: usize| random.below(file.len() + 1));
    places.sort_unstable();
    let [first, second, third] = places;
    vec![
        &file[..first],
        &file[first..second],
        &file[second..third],
        &file[third..],
    ]
}

fn difference(place: &str, printed: &Listing, expected: &[u8]) -> String {
    let expected = String::from_utf8_lossy(expected);
    format!("{place}\n--- program: {printed}\n--- reference:\n{expected}")
}

/// How the listing ends.
fn ending(text: &[u8]) -> String {
    let text = String::from_utf8_lossy(text);
    let last = text.lines().last().unwrap_or_default();
    let words: Vec<&str> = last.split(' ').collect();
    match words.as_slice() {
        ["too", "long"] => "too long".to_string(),
        ["refused", number, _] => format!("refused {number}"),
        _ => "taken in".to_string(),
    }
}

/// Prints how the listings ended. It is an error if some ending never came.
fn finish(seen: &BTreeMap<String, u32>) -> Result<(), String> {
    for (ending, count) in seen {
        println!("{count:>5} files: {ending}");
    }
    let is_missing = |ending: &&str| !seen.contains_key(*ending);
    let missing: Vec<&str> = ENDINGS.into_iter().filter(is_missing).collect();
    if missing.is_empty() {
        println!("{:>5} files: no difference", seen.values().sum::<u32>());
        Ok(())
    } else {
        Err(format!("never seen: {}", missing.join(", ")))
    }
}
