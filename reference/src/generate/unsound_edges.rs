//! Edges that break a clause.

use crate::generate::edge_counts::any_edge;
use crate::generate::unsound_tables::{any_version, number_from};
use crate::random::Random;
use crate::record::Kind;
use crate::rows::EdgeRow;
use crate::sound::Clause;
use crate::tables::Tables;

/// Changes an edge so that the clause may no longer hold; none if there is no
/// edge for it.
pub fn break_edge(random: &mut Random, tables: &mut Tables, clause: Clause) -> Option<()> {
    let any = any_edge(random, tables)?;
    let number = match clause {
        Clause::EdgeTimeAtLeastOne => return start_at_0(tables, any),
        Clause::EdgeTimesDoNotFall => return fall(random, tables, any),
        Clause::EdgeTimeAtMostLast => tables.counts.edges - 1,
        _ => any,
    };
    let mut row = tables.view().edge(number);
    break_end(random, tables, clause, &mut row)
        .or_else(|| break_kind(random, clause, &mut row))
        .or_else(|| break_time(random, tables.counts.last, clause, &mut row))?;
    tables.set_edge(number, row);
    Some(())
}

/// Time 0 for all edges up to this one, so that times do not fall.
fn start_at_0(tables: &mut Tables, number: u32) -> Option<()> {
    for edge in 0..=number {
        set_time(tables, edge, 0);
    }
    Some(())
}

/// A time before that of the edge before, often by one.
fn fall(random: &mut Random, tables: &mut Tables, number: u32) -> Option<()> {
    let before = tables.view().edge(number.checked_sub(1)?).time;
    let lower = before.checked_sub(1)?;
    let time = match random.below(2) {
        0 => lower,
        _ => random.between(0, lower),
    };
    set_time(tables, number, time);
    Some(())
}

fn set_time(tables: &mut Tables, number: u32, time: u32) {
    let row = tables.view().edge(number);
    tables.set_edge(number, EdgeRow { time, ..row });
}

/// Gives the edge another version at one of its ends.
fn break_end(
    random: &mut Random,
    tables: &Tables,
    clause: Clause,
    row: &mut EdgeRow,
) -> Option<()> {
    match clause {
        Clause::FromExists => row.from = number_from(random, tables.counts.versions),
        Clause::ToExists => row.to = number_from(random, tables.counts.versions),
        Clause::SourceHasSortOfKind => row.from = any_version(random, tables)?,
        Clause::TargetHasSortOfKind => row.to = any_version(random, tables)?,
        Clause::EdgeJoinsTwoEntities => {
            row.from = any_version(random, tables)?;
            row.to = any_version(random, tables)?;
            row.kind = Kind::Fork.number();
        }
        _ => return None,
    }
    Some(())
}

fn break_kind(random: &mut Random, clause: Clause, row: &mut EdgeRow) -> Option<()> {
    if clause != Clause::KindIsOneToFive {
        return None;
    }
    row.kind = match random.below(2) {
        0 => 0,
        _ => number_from(random, 6),
    };
    Some(())
}

/// Gives the edge another time or last time, in a trail with this last time.
fn break_time(random: &mut Random, last: u32, clause: Clause, row: &mut EdgeRow) -> Option<()> {
    match clause {
        Clause::EdgeTimeAtMostLast => {
            row.time = number_from(random, last.checked_add(1)?);
            if random.one_in(2) {
                row.last = number_from(random, row.time);
            }
        }
        Clause::EdgeLastAtLeastTime if random.one_in(2) => row.last = row.time - 1,
        Clause::EdgeLastAtLeastTime => row.last = random.between(0, row.time - 1),
        Clause::EdgeLastAtMostLast => row.last = number_from(random, last.checked_add(1)?),
        _ => return None,
    }
    Some(())
}
