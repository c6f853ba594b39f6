//! The kept log of a trail grown from fresh, taken in again.

use crate::calls::kept_log;
use crate::comparison::{Compared, Comparison};
use crate::difference::{differ, differ_at, Difference};
use reference::kept_log::log_length;
use reference::rows::{EdgeRow, EntityRow};
use reference::{Call, TableLengths, Tables};

/// Writes the kept log and takes it into a fresh trail of these lengths.
pub fn taken_in_again(
    comparison: &mut Comparison,
    tables: &Tables,
    lengths: TableLengths,
) -> Compared {
    comparison.kept_logs(tables)?;
    let made = comparison.call(tables, kept_log(log_length(tables.view())))?;
    let Call::KeptLog { out: file } = made.call else {
        return Ok(());
    };
    let (fresh, batch) = (Tables::fresh(lengths), Call::Batch { file });
    let again = comparison.call(&fresh, batch.clone())?.tables;
    match differ_from_kept(tables, &again) {
        Some(place) => Err(Difference::new(&fresh, &batch, place)),
        None => Ok(()),
    }
}

/// The same edges are kept again, each stands for one event, and the same
/// objects are signed.
fn differ_from_kept(tables: &Tables, again: &Tables) -> Option<String> {
    let numbers = |row: EdgeRow| [row.kind, row.time, row.count, row.last];
    let kept = |row: EdgeRow| [row.kind, row.time, 1, row.time];
    let regrown: Vec<[u32; 4]> = again.view().edge_rows().map(numbers).collect();
    let expected: Vec<[u32; 4]> = tables.view().edge_rows().map(kept).collect();
    differ("edges kept again", regrown.len(), expected.len())
        .or_else(|| differ_at("edges kept again", &regrown, &expected))
        .or_else(|| differ("sorts again", sorts(again), sorts(tables)))
}

fn sorts(tables: &Tables) -> Vec<u32> {
    let sort = |row: EntityRow| row.sort;
    tables.view().entity_rows().map(sort).collect()
}
