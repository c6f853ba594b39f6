//! Accepted events and counts of edges that break a clause.

use crate::capacity::MOST_ACCEPTED;
use crate::generate::edge_counts::{add_all, any_edge, raise_accepted, set_count};
use crate::generate::unsound_tables::number_from;
use crate::random::Random;
use crate::rows::EdgeRow;
use crate::sound::Clause;
use crate::tables::Tables;

/// Changes accepted or the counts of edges so that the clause may no longer
/// hold; none if there is no edge for it.
pub fn break_events(random: &mut Random, tables: &mut Tables, clause: Clause) -> Option<()> {
    match clause {
        Clause::EdgesAtMostAccepted => accept_too_few(random, tables),
        Clause::AcceptedAtMostMillion => {
            let accepted = number_from(random, MOST_ACCEPTED + 1);
            raise_accepted(random, tables, accepted)
        }
        Clause::EdgeCountAtLeastOne => move_count(random, tables),
        Clause::EdgeCountsSumToAccepted => break_sum(random, tables),
        _ => None,
    }
}

/// Fewer events than edges, which may stand for just these.
fn accept_too_few(random: &mut Random, tables: &mut Tables) -> Option<()> {
    tables.counts.accepted = any_edge(random, tables)?;
    if random.one_in(2) {
        let without = |row: EdgeRow| EdgeRow { count: 0, ..row };
        let mut rows: Vec<EdgeRow> = tables.view().edge_rows().map(without).collect();
        add_all(random, &mut rows, tables.counts.accepted);
        for (number, row) in (0..).zip(rows) {
            tables.set_edge(number, row);
        }
    }
    Some(())
}

/// An edge that stands for nothing, and another that stands for its events
/// too.
fn move_count(random: &mut Random, tables: &mut Tables) -> Option<()> {
    let [(one, of_one), (other, of_other)] = two_edges(random, tables)?;
    set_count(tables, one, 0);
    set_count(tables, other, of_other + of_one);
    Some(())
}

/// One event less or more accepted, or counted at an edge; or 2^32 more
/// counted at two edges.
fn break_sum(random: &mut Random, tables: &mut Tables) -> Option<()> {
    let accepted = tables.counts.accepted;
    let other = |random: &mut Random, number: u32| match random.below(2) {
        0 => number.checked_sub(1),
        _ => Some(number + 1),
    };
    match random.below(3) {
        0 => tables.counts.accepted = other(random, accepted)?,
        1 => {
            let edge = any_edge(random, tables)?;
            let count = other(random, tables.view().edge(edge).count)?;
            set_count(tables, edge, count);
        }
        _ => count_past_32_bits(random, tables)?,
    }
    Some(())
}

/// 2^32 events more, some of them at one edge and the others at another.
fn count_past_32_bits(random: &mut Random, tables: &mut Tables) -> Option<()> {
    let [(one, of_one), (other, of_other)] = two_edges(random, tables)?;
    let part = random.between(of_other + 1, u32::MAX - of_one);
    set_count(tables, one, of_one + part);
    set_count(tables, other, of_other + (u32::MAX - part) + 1);
    Some(())
}

/// Two edges and their counts; none if there are not two.
fn two_edges(random: &mut Random, tables: &Tables) -> Option<[(u32, u32); 2]> {
    let (one, other) = (any_edge(random, tables)?, any_edge(random, tables)?);
    let with_count = |number: u32| (number, tables.view().edge(number).count);
    (one != other).then(|| [one, other].map(with_count))
}
