//! How many calls were compared, by call and refusal number, and how many
//! batches tried edges.

use reference::{Answer, BatchAnswer};
use std::fmt;

/// The refusal numbers and 0.
const NUMBERS: usize = 18;

/// A call with the numbers it can give.
struct CallNumbers {
    name: &'static str,
    numbers: &'static [u32],
}

const CALLS: [CallNumbers; 4] = [
    CallNumbers {
        name: "batch",
        numbers: &[0, 1, 2, 3, 4, 5, 6, 7, 8, 9, 10, 11, 12, 13, 16, 17],
    },
    CallNumbers {
        name: "backward",
        numbers: &[0, 5, 14, 16],
    },
    CallNumbers {
        name: "forward",
        numbers: &[0, 5, 14, 16],
    },
    CallNumbers {
        name: "kept log",
        numbers: &[0, 15, 16],
    },
];

/// A batch refused with another number tries no edge.
const MAY_HAVE_TRIED: [u32; 13] = [0, 3, 4, 5, 6, 7, 8, 9, 10, 11, 12, 13, 17];

#[derive(Default)]
pub struct Tally {
    seen: [[u64; NUMBERS]; CALLS.len()],
    /// The batches that tried edges.
    tried: [u64; NUMBERS],
    /// The most edges that a batch tried, by refusal number.
    most_tried: [u64; NUMBERS],
}

impl Tally {
    pub fn note(&mut self, answer: Answer) {
        let call = match answer {
            Answer::Batch(_) => 0,
            Answer::Backward(_) => 1,
            Answer::Forward(_) => 2,
            Answer::KeptLog(_) => 3,
        };
        self.seen[call][answer.refusal() as usize] += 1;
        if let Answer::Batch(answer) = answer {
            self.note_tried(answer);
        }
    }

    fn note_tried(&mut self, answer: BatchAnswer) {
        let number = answer.refusal as usize;
        self.tried[number] += u64::from(answer.tried > 0);
        self.most_tried[number] = self.most_tried[number].max(answer.tried);
    }

    pub fn calls(&self) -> u64 {
        self.seen.iter().flatten().sum()
    }

    /// The calls and the numbers they can give but never gave.
    pub fn never_seen(&self) -> Vec<String> {
        let mut never = self.never_tried();
        for (call, seen) in CALLS.iter().zip(&self.seen) {
            let numbers = call.numbers.iter();
            let unseen = numbers.filter(|number| seen[**number as usize] == 0);
            never.extend(unseen.map(|number| format!("{} {number}", call.name)));
        }
        never
    }

    /// The numbers with which no batch tried edges; and whether none, refused
    /// or not, tried more than 32 bits can say.
    fn never_tried(&self) -> Vec<String> {
        let untried = |number: &u32| self.tried[*number as usize] == 0;
        let numbers = MAY_HAVE_TRIED.into_iter().filter(untried);
        let mut never: Vec<String> = numbers
            .map(|number| format!("batch {number} with edges tried"))
            .collect();
        let is_small = |most: &u64| *most <= u64::from(u32::MAX);
        if is_small(&self.most_tried[0]) {
            never.push("batch 0 with edges tried past 32 bits".to_string());
        }
        if self.most_tried[1..].iter().all(is_small) {
            never.push("batch refused with edges tried past 32 bits".to_string());
        }
        never
    }
}

/// A line for each number and a column for each call; the last column has the
/// batches that tried edges.
impl fmt::Display for Tally {
    fn fmt(&self, to: &mut fmt::Formatter) -> fmt::Result {
        write!(to, "{:<10}", "refusal")?;
        for call in &CALLS {
            write!(to, "{:>10}", call.name)?;
        }
        write!(to, "{:>10}", "tried")?;
        for number in 0..NUMBERS {
            write!(to, "\n{:<10}", name_of(number))?;
            for (call, seen) in CALLS.iter().zip(&self.seen) {
                write_cell(to, call.numbers, seen, number)?;
            }
            write_cell(to, &MAY_HAVE_TRIED, &self.tried, number)?;
        }
        write!(to, "\n{:<10}", "calls")?;
        for seen in self.seen.iter().chain([&self.tried]) {
            write!(to, "{:>10}", seen.iter().sum::<u64>())?;
        }
        let most = self.most_tried.iter().max().unwrap_or(&0);
        write!(to, "\nmost edges tried in a batch: {most}")
    }
}

fn write_cell(
    to: &mut fmt::Formatter,
    can_be: &[u32],
    seen: &[u64; NUMBERS],
    number: usize,
) -> fmt::Result {
    match can_be.contains(&(number as u32)) {
        true => write!(to, "{:>10}", seen[number]),
        false => write!(to, "{:>10}", "-"),
    }
}

fn name_of(number: usize) -> String {
    match number {
        0 => "none".to_string(),
        _ => number.to_string(),
    }
}
