//! Compares the library's archive with the reference: each answer, the counts
//! and every number and byte of every lent buffer, guard values included.
//!
//! `compare [SEED] [ROUNDS]` ends with status 1 at the first difference, or if
//! a refusal that can occur never did, if no batch tried edges under one that
//! allows it, or if none tried more than 32 bits hold.

mod calls;
mod caps;
mod comparison;
mod difference;
mod every_file;
mod every_list;
mod every_rows;
mod every_table;
mod faults;
mod lengths;
mod lists;
mod long_files;
mod made;
mod members;
mod round_trip;
mod sections;
mod signatures;
mod tables;
mod tally;
mod ticks;
mod tried;
mod worked_trail;

use comparison::Comparison;
use reference::Random;
use sections::{Section, EACH_ROUND, ONCE};
use std::env;
use std::process::ExitCode;
use std::thread;

const DEFAULT_SEED: u64 = 1;
const DEFAULT_ROUNDS: u64 = 64;
/// A batch of the archive takes more than a megabyte of stack.
const STACK_BYTES: usize = 64 << 20;

fn main() -> ExitCode {
    let Some((seed, rounds)) = parameters() else {
        eprintln!("compare [SEED] [ROUNDS]");
        return ExitCode::from(2);
    };
    let run = move || Run::new(seed).compare(rounds);
    let thread = thread::Builder::new().stack_size(STACK_BYTES).spawn(run);
    match thread.expect("a thread can be started").join() {
        Ok(Ok(())) => ExitCode::SUCCESS,
        Ok(Err(text)) => {
            println!("{text}");
            ExitCode::FAILURE
        }
        Err(_) => ExitCode::FAILURE,
    }
}

/// The seed and the number of rounds, if the words are numbers.
fn parameters() -> Option<(u64, u64)> {
    let words: Vec<String> = env::args().skip(1).collect();
    let number = |place: usize, default: u64| match words.get(place) {
        Some(word) => word.parse().ok(),
        None => Some(default),
    };
    if words.len() > 2 {
        return None;
    }
    Some((number(0, DEFAULT_SEED)?, number(1, DEFAULT_ROUNDS)?))
}

/// The comparison and the number of calls made in each section.
struct Run {
    seed: u64,
    comparison: Comparison,
    calls: Vec<(&'static str, u64)>,
}

impl Run {
    fn new(seed: u64) -> Run {
        Run {
            seed,
            comparison: Comparison::default(),
            calls: Vec::new(),
        }
    }

    /// Round by round, the sections made once after the first round. Each
    /// round has its own seed, the first that of the run.
    fn compare(mut self, rounds: u64) -> Result<(), String> {
        for round in 0..rounds {
            let seed = self.seed.wrapping_add(round);
            eprintln!("round with seed {seed}");
            self.sections(&EACH_ROUND, seed)?;
            if round == 0 {
                self.sections(&ONCE, seed)?;
            }
        }
        println!("compared with seed {}, rounds: {rounds}", self.seed);
        self.finish()
    }

    fn sections(&mut self, sections: &[Section], seed: u64) -> Result<(), String> {
        for section in sections {
            self.section(section, seed)?;
        }
        Ok(())
    }

    fn section(&mut self, section: &Section, seed: u64) -> Result<(), String> {
        eprintln!("  {}", section.name);
        self.comparison.begin_section();
        let before = self.comparison.tally.calls();
        let mut random = Random::new(seed);
        let compared = (section.run)(&mut self.comparison, &mut random);
        self.note(section.name, self.comparison.tally.calls() - before);
        let name = section.name;
        let repeat = format!("difference in \"{name}\"; repeat it by: compare {seed} 1");
        compared.map_err(|difference| format!("{repeat}\n{difference}"))
    }

    fn note(&mut self, name: &'static str, calls: u64) {
        match self.calls.iter_mut().find(|(noted, _)| *noted == name) {
            Some((_, total)) => *total += calls,
            None => self.calls.push((name, calls)),
        }
    }

    /// Prints what was compared. It is an error if some answer never came.
    fn finish(self) -> Result<(), String> {
        for (name, calls) in &self.calls {
            println!("{calls:>9} calls: {name}");
        }
        println!("{}", self.comparison.tally);
        let never = self.comparison.tally.never_seen();
        if never.is_empty() {
            println!("no difference");
            Ok(())
        } else {
            Err(format!("never seen: {}", never.join(", ")))
        }
    }
}
