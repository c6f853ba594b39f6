//! Batches refused for each reason, and batches of any file on any tables.

use crate::comparison::{Compared, Comparison};
use reference::generate::calls::batch_on;
use reference::generate::{
    grown_tables, large_tables, lend_anew, odd_lengths, refused_batch, sign_some, sound_tables,
    BatchFault,
};
use reference::{Random, Tables};

const PER_FAULT: usize = 12;
const BATCHES: usize = 400;

/// The reference must give the number the fault is made for.
pub fn batch_faults(comparison: &mut Comparison, random: &mut Random) -> Compared {
    for fault in BatchFault::ALL {
        for _ in 0..PER_FAULT {
            let mut case = refused_batch(random, fault);
            let answer = comparison.batch(&mut case.tables, case.file)?;
            assert_eq!(answer.refusal(), case.refusal, "{fault:?}");
        }
    }
    Ok(())
}

/// Sound tables nobody grew, of some dozen rows.
fn middle_sized(random: &mut Random) -> Tables {
    let mut tables = large_tables(random, 8, 30, 60);
    sign_some(random, &mut tables);
    let lengths = odd_lengths(random, tables.counts);
    lend_anew(random, &tables, lengths)
}

pub fn any_batches(comparison: &mut Comparison, random: &mut Random) -> Compared {
    for _ in 0..BATCHES {
        let tables = match random.below(3) {
            0 => grown_tables(random, 40),
            1 => sound_tables(random),
            _ => middle_sized(random),
        };
        comparison.call(&tables, batch_on(random, &tables))?;
    }
    Ok(())
}
