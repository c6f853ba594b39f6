//! Batches that try more edges than 32 bits hold. Such long files the
//! reference takes in without a plain scan; its tests hold the two together.

use crate::comparison::{Compared, Comparison};
use reference::capacity::{MOST_EDGES, MOST_VERSIONS};
use reference::generate::{filled_edges, with_repeats_of_oldest};
use reference::{Answer, FileBuilder, Random, TableLengths, Tables};

/// So many repeats of the oldest edge try 2^32 edges.
const REPEATS: u32 = 1 << 14;

/// A trail with all edge rows in use, all but the first by forks and execves,
/// and repeats of its oldest edge: one fewer than try 2^32 edges, as many, and one more.
pub fn past_32_bits(comparison: &mut Comparison, _: &mut Random) -> Compared {
    let mut filled = Tables::fresh(TableLengths::of_rows(5, MOST_VERSIONS, MOST_EDGES));
    let fresh = filled.clone();
    let nothing = tried(comparison, &mut filled, filled_edges())?;
    assert_eq!(nothing, 0, "the file is made to try no edge");
    for repeats in [REPEATS - 1, REPEATS, REPEATS + 1] {
        let file = with_repeats_of_oldest(FileBuilder::new(), repeats);
        let tried = tried(comparison, &mut filled.clone(), file)?;
        assert_eq!(
            tried,
            u64::from(repeats) * MOST_EDGES as u64,
            "each tries all edges"
        );
    }
    let whole = with_repeats_of_oldest(filled_edges(), REPEATS + 1);
    tried(comparison, &mut fresh.clone(), whole)?;
    refused(comparison, &filled)
}

/// Repeats that try 2^32 edges, then an event refused after all edges are
/// tried for it, or one refused before any is. Neither counts.
fn refused(comparison: &mut Comparison, filled: &Tables) -> Compared {
    let file = with_repeats_of_oldest(FileBuilder::new(), REPEATS);
    let last = filled.counts.last + REPEATS;
    let no_row_left = file.clone().write(1, 0, last + 1);
    let earlier = file.read(0, 1, last - 1).read(0, 1, last + 1);
    for file in [no_row_left, earlier] {
        let tried = tried(comparison, &mut filled.clone(), file)?;
        assert_eq!(tried, 1 << 32, "the event refused counts none");
    }
    Ok(())
}

/// Takes the file in. Gives how many edges it tried.
fn tried(comparison: &mut Comparison, tables: &mut Tables, file: FileBuilder) -> Compared<u64> {
    match comparison.batch(tables, file.bytes())? {
        Answer::Batch(answer) => Ok(answer.tried),
        _ => Ok(0),
    }
}
