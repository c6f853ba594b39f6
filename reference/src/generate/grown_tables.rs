//! Tables grown from a fresh trail.

use crate::answers::Counts;
use crate::capacity::TableLengths;
use crate::generate::files::event_file;
use crate::generate::lengths::{lend_anew, odd_lengths};
use crate::generate::records::RecordSource;
use crate::generate::ties::Ties;
use crate::random::Random;
use crate::tables::Tables;

/// Tables into which a file of this many records was taken, at odd lengths.
pub fn grown_tables(random: &mut Random, records: usize) -> Tables {
    let mut source = RecordSource::fresh().with_ties(Ties::any(random));
    let file = event_file(random, &mut source, records);
    let mut tables = fresh_tables(random, records);
    tables.batch(&file);
    let lengths = odd_lengths(random, tables.counts);
    lend_anew(random, &tables, lengths)
}

/// A fresh trail with this many rows in each table, which hold anything.
pub fn fresh_tables(random: &mut Random, rows: usize) -> Tables {
    let lengths = TableLengths::of_rows(rows, rows, rows);
    Tables {
        counts: Counts::FRESH,
        entities: random.numbers(lengths.entities),
        versions: random.numbers(lengths.versions),
        edges: random.numbers(lengths.edges),
    }
}
