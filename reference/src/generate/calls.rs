//! Calls on given tables, and lists of calls that start from a fresh trail.

use crate::answers::Counts;
use crate::call::Call;
use crate::capacity::{Capacity, TableLengths, MOST_EDGES, MOST_ENTITIES};
use crate::full_list::FullList;
use crate::generate::files::any_file;
use crate::generate::lengths::{odd_lengths, roomy_lengths, tiny_lengths};
use crate::generate::records::RecordSource;
use crate::generate::ties::Ties;
use crate::generate::traces::any_trace;
use crate::kept_log::log_length;
use crate::random::Random;
use crate::tables::Tables;

/// A call of a list and the lengths of the tables lent to it.
#[derive(Clone, Debug, PartialEq, Eq)]
pub struct LentCall {
    pub lengths: TableLengths,
    pub call: Call,
}

/// A list of batches and traces, refused ones among them. Each call's tables
/// hold the rows in use after the calls before it.
pub fn call_list(random: &mut Random, calls: usize) -> Vec<LentCall> {
    let mut list = FullList::new();
    let mut lent_calls = Vec::new();
    for _ in 0..calls {
        let lengths = lengths_of_call(random, list.counts());
        let call = if random.one_in(2) {
            batch_after(random, &mut list, lengths)
        } else {
            any_trace(random, list.counts())
        };
        lent_calls.push(LentCall { lengths, call });
    }
    lent_calls
}

/// A batch that goes on from the list; the list takes it in.
fn batch_after(random: &mut Random, list: &mut FullList, lengths: TableLengths) -> Call {
    let records = random.below(24);
    let ties = Ties::any(random);
    let mut source = RecordSource::after_list(list).with_ties(ties);
    let file = any_file(random, &mut source, records);
    list.batch(Capacity::of(lengths), &file);
    Call::Batch { file }
}

fn lengths_of_call(random: &mut Random, counts: Counts) -> TableLengths {
    match random.below(4) {
        0 => tiny_lengths(random, counts),
        1 => odd_lengths(random, counts),
        _ => roomy_lengths(counts),
    }
}

/// Any call on these tables, sound or not.
pub fn any_call(random: &mut Random, tables: &Tables) -> Call {
    match random.below(4) {
        0 => Call::KeptLog {
            out: output(random, tables),
        },
        1 => batch_on(random, tables),
        _ => any_trace(random, tables.counts),
    }
}

/// A batch of any file that goes on from the tables. Tables too short to hold
/// their rows get a file that starts from fresh.
pub fn batch_on(random: &mut Random, tables: &Tables) -> Call {
    let rows_fit = tables.counts.entities as usize <= tables.view().capacity().entities;
    let source = if rows_fit {
        RecordSource::after_tables(tables)
    } else {
        RecordSource::fresh()
    };
    let mut source = source.with_ties(Ties::any(random));
    let records = random.below(16);
    Call::Batch {
        file: any_file(random, &mut source, records),
    }
}

/// An output for the kept log, now and then a byte or more short. Counts above
/// the caps get a small output.
fn output(random: &mut Random, tables: &Tables) -> Vec<u8> {
    let counts = tables.counts;
    if counts.entities as usize > MOST_ENTITIES || counts.edges as usize > MOST_EDGES {
        return random.bytes(100);
    }
    let log = log_length(tables.view());
    let length = match random.below(6) {
        0 => log - 1,
        1 => random.below(log),
        2 => log,
        _ => log + random.below(20),
    };
    random.bytes(length)
}
