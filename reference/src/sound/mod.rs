//! Sound tables, clause by clause.

use crate::capacity::MOST_ACCEPTED;
use crate::record::{Kind, Sort};
use crate::rows::{EdgeRow, VersionRow, NO_VERSION};
use crate::table_view::TableView;
pub use clause::Clause;

mod clause;

/// Whether the tables are sound.
pub fn is_sound(view: TableView) -> bool {
    broken_clauses(view).is_empty()
}

/// The clauses that do not hold, in the order of `Clause::ALL`. Rows are read
/// only if every count is within capacity. A clause about a row that does not
/// exist is taken to hold: the clause that asks for the row is broken then.
pub fn broken_clauses(view: TableView) -> Vec<Clause> {
    let (of_capacity, others) = Clause::ALL.split_at(3);
    let broken_capacity = broken(of_capacity, view);
    if broken_capacity.is_empty() {
        broken(others, view)
    } else {
        broken_capacity
    }
}

fn broken(clauses: &[Clause], view: TableView) -> Vec<Clause> {
    let is_broken = |clause: &Clause| !holds(*clause, view);
    clauses.iter().copied().filter(is_broken).collect()
}

fn holds(clause: Clause, view: TableView) -> bool {
    match clause {
        Clause::EntitiesWithinCapacity
        | Clause::VersionsWithinCapacity
        | Clause::EdgesWithinCapacity
        | Clause::EdgesAtMostAccepted
        | Clause::AcceptedAtMostMillion => counts_hold(clause, view),
        Clause::SortIsZeroToTwo | Clause::LatestExists | Clause::LatestIsOfThatEntity => {
            (0..view.counts.entities).all(|number| entity_holds(clause, view, number))
        }
        Clause::VersionEntityExists
        | Clause::StartAtMostEnd
        | Clause::EndAtMostLast
        | Clause::NoPreviousWhereStartIsZero
        | Clause::PreviousWhereStartIsNotZero
        | Clause::PreviousHasLowerNumber
        | Clause::PreviousIsOfSameEntity
        | Clause::PreviousStartsNoLater => {
            (0..view.counts.versions).all(|number| version_holds(clause, view, number))
        }
        Clause::FromExists
        | Clause::ToExists
        | Clause::EdgeJoinsTwoEntities
        | Clause::KindIsOneToFive
        | Clause::SourceHasSortOfKind
        | Clause::TargetHasSortOfKind
        | Clause::EdgeTimeAtLeastOne
        | Clause::EdgeTimeAtMostLast
        | Clause::EdgeCountAtLeastOne
        | Clause::EdgeLastAtLeastTime
        | Clause::EdgeLastAtMostLast => {
            (0..view.counts.edges).all(|number| edge_holds(clause, view, number))
        }
        Clause::EdgeTimesDoNotFall => edge_times_do_not_fall(view),
        Clause::EdgeCountsSumToAccepted => edge_counts_sum_to_accepted(view),
    }
}

/// The clauses on the counts alone.
fn counts_hold(clause: Clause, view: TableView) -> bool {
    let (counts, capacity) = (view.counts, view.capacity());
    match clause {
        Clause::EntitiesWithinCapacity => counts.entities as usize <= capacity.entities,
        Clause::VersionsWithinCapacity => counts.versions as usize <= capacity.versions,
        Clause::EdgesWithinCapacity => counts.edges as usize <= capacity.edges,
        Clause::EdgesAtMostAccepted => counts.edges <= counts.accepted,
        Clause::AcceptedAtMostMillion => counts.accepted <= MOST_ACCEPTED,
        _ => true,
    }
}

/// The clauses on one entity row.
fn entity_holds(clause: Clause, view: TableView, number: u32) -> bool {
    let entity = view.entity(number);
    match clause {
        Clause::SortIsZeroToTwo => entity.sort <= 2,
        Clause::LatestExists => entity.latest < view.counts.versions,
        Clause::LatestIsOfThatEntity => match version(view, entity.latest) {
            Some(latest) => latest.entity == number,
            None => true,
        },
        _ => true,
    }
}

/// The clauses on one version row.
fn version_holds(clause: Clause, view: TableView, number: u32) -> bool {
    let version = view.version(number);
    match clause {
        Clause::VersionEntityExists => version.entity < view.counts.entities,
        Clause::StartAtMostEnd => version.start <= version.end,
        Clause::EndAtMostLast => version.end <= view.counts.last,
        Clause::NoPreviousWhereStartIsZero => version.start != 0 || version.previous == NO_VERSION,
        Clause::PreviousWhereStartIsNotZero => version.start == 0 || version.previous != NO_VERSION,
        _ if version.start == 0 || version.previous == NO_VERSION => true,
        _ => previous_holds(clause, view, number),
    }
}

/// The clauses on the previous version of a version that has one.
fn previous_holds(clause: Clause, view: TableView, number: u32) -> bool {
    let own = view.version(number);
    if clause == Clause::PreviousHasLowerNumber {
        return own.previous < number;
    }
    let Some(previous) = version(view, own.previous) else {
        return true;
    };
    match clause {
        Clause::PreviousIsOfSameEntity => previous.entity == own.entity,
        Clause::PreviousStartsNoLater => previous.start <= own.start,
        _ => true,
    }
}

/// The clauses on one edge row.
fn edge_holds(clause: Clause, view: TableView, number: u32) -> bool {
    let edge = view.edge(number);
    match clause {
        Clause::FromExists => edge.from < view.counts.versions,
        Clause::ToExists => edge.to < view.counts.versions,
        Clause::EdgeJoinsTwoEntities => joins_two_entities(view, edge),
        Clause::KindIsOneToFive => Kind::from_number(edge.kind).is_some(),
        Clause::SourceHasSortOfKind => match Kind::from_number(edge.kind) {
            Some(kind) => has_sort(view, edge.from, kind.sorts().0),
            None => true,
        },
        Clause::TargetHasSortOfKind => match Kind::from_number(edge.kind) {
            Some(kind) => has_sort(view, edge.to, kind.sorts().1),
            None => true,
        },
        Clause::EdgeTimeAtLeastOne => 1 <= edge.time,
        Clause::EdgeTimeAtMostLast => edge.time <= view.counts.last,
        Clause::EdgeCountAtLeastOne => 1 <= edge.count,
        Clause::EdgeLastAtLeastTime => edge.time <= edge.last,
        Clause::EdgeLastAtMostLast => edge.last <= view.counts.last,
        _ => true,
    }
}

fn joins_two_entities(view: TableView, edge: EdgeRow) -> bool {
    match (version(view, edge.from), version(view, edge.to)) {
        (Some(from), Some(to)) => from.entity != to.entity,
        _ => true,
    }
}

/// Whether the version's entity is of this sort, a signed object being an
/// object; true if either is missing.
fn has_sort(view: TableView, number: u32, sort: Sort) -> bool {
    match version(view, number) {
        Some(version) if version.entity < view.counts.entities => {
            view.entity(version.entity).declared_sort() == Some(sort)
        }
        _ => true,
    }
}

fn edge_times_do_not_fall(view: TableView) -> bool {
    (1..view.counts.edges).all(|number| view.edge(number - 1).time <= view.edge(number).time)
}

fn edge_counts_sum_to_accepted(view: TableView) -> bool {
    view.counted_events() == u64::from(view.counts.accepted)
}

/// The version row, if it exists.
fn version(view: TableView, number: u32) -> Option<VersionRow> {
    (number < view.counts.versions).then(|| view.version(number))
}
