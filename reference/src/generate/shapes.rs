//! Shapes of sound tables that grown tables never have.

use crate::rows::{EdgeRow, NO_VERSION};
use crate::table_view::TableView;
use crate::trace::chain;

/// What grown tables never hold.
#[derive(Clone, Copy, Debug, PartialEq, Eq)]
pub enum Shape {
    /// A version with a start above 0 that no edge enters.
    VersionNoEdgeEnters,
    /// A version that is on no entity's chain.
    VersionOffEveryChain,
    /// A version that an edge leaves before a newer one enters it.
    EdgeLeavesBeforeOneEnters,
    /// The same in one tick.
    EdgeLeavesInTickBeforeOneEnters,
    /// Two versions with the same previous version.
    TwoVersionsAfterOne,
    /// A version that starts in the tick in which its previous starts, though
    /// no edge leaves that one.
    StartsInTickOfUnusedPrevious,
    /// An edge that enters a version before that version starts.
    EdgeEntersBeforeStart,
    /// A last time without an accepted event.
    LastWithoutEvents,
    /// An edge with a count of 1 and a last time above its time.
    OneEventWithLaterLast,
    /// An edge with a last time above the time of a newer edge that goes from
    /// the same version to the same entity.
    CountedAfterNewerEdge,
}

impl Shape {
    pub const ALL: [Shape; 10] = [
        Shape::VersionNoEdgeEnters,
        Shape::VersionOffEveryChain,
        Shape::EdgeLeavesBeforeOneEnters,
        Shape::EdgeLeavesInTickBeforeOneEnters,
        Shape::TwoVersionsAfterOne,
        Shape::StartsInTickOfUnusedPrevious,
        Shape::EdgeEntersBeforeStart,
        Shape::LastWithoutEvents,
        Shape::OneEventWithLaterLast,
        Shape::CountedAfterNewerEdge,
    ];

    /// Whether sound tables have this shape.
    pub fn is_in(self, view: TableView) -> bool {
        match self {
            Shape::VersionNoEdgeEnters => has_version_no_edge_enters(view),
            Shape::VersionOffEveryChain => has_version_off_every_chain(view),
            Shape::EdgeLeavesBeforeOneEnters => !left_before_entered(view).is_empty(),
            Shape::EdgeLeavesInTickBeforeOneEnters => has_edge_leaving_in_tick(view),
            Shape::TwoVersionsAfterOne => has_two_versions_after_one(view),
            Shape::StartsInTickOfUnusedPrevious => has_start_in_tick_of_unused(view),
            Shape::EdgeEntersBeforeStart => has_edge_entering_before_start(view),
            Shape::LastWithoutEvents => view.counts.accepted == 0 && view.counts.last > 0,
            Shape::OneEventWithLaterLast => has_one_event_with_later_last(view),
            Shape::CountedAfterNewerEdge => has_edge_counted_after_newer_edge(view),
        }
    }
}

fn has_version_no_edge_enters(view: TableView) -> bool {
    let mut numbers = 0..view.counts.versions;
    numbers.any(|number| {
        let started = view.version(number).start > 0;
        started && view.edge_rows().all(|edge| edge.to != number)
    })
}

fn has_version_off_every_chain(view: TableView) -> bool {
    let entities = 0..view.counts.entities;
    let on_chains: Vec<u32> = entities.flat_map(|entity| chain(view, entity)).collect();
    let mut numbers = 0..view.counts.versions;
    numbers.any(|number| !on_chains.contains(&number))
}

/// Each edge that leaves a version and each newer one that enters it.
fn left_before_entered(view: TableView) -> Vec<(EdgeRow, EdgeRow)> {
    let mut pairs = Vec::new();
    for number in 0..view.counts.edges {
        let leaving = view.edge(number);
        let newer = (number + 1..view.counts.edges).map(|number| view.edge(number));
        let entering = newer.filter(|edge| edge.to == leaving.from);
        pairs.extend(entering.map(|entering| (leaving, entering)));
    }
    pairs
}

fn has_edge_leaving_in_tick(view: TableView) -> bool {
    let mut pairs = left_before_entered(view).into_iter();
    pairs.any(|(leaving, entering)| leaving.time == entering.time)
}

fn has_two_versions_after_one(view: TableView) -> bool {
    let mut numbers = 0..view.counts.versions;
    numbers.any(|number| {
        let after = view.version_rows().filter(|row| row.previous == number);
        after.count() > 1
    })
}

fn has_start_in_tick_of_unused(view: TableView) -> bool {
    let is_left = |number: u32| view.edge_rows().any(|edge| edge.from == number);
    let mut later = view.version_rows().filter(|row| row.previous != NO_VERSION);
    later.any(|row| {
        let is_tied = view.version(row.previous).start == row.start;
        is_tied && !is_left(row.previous)
    })
}

fn has_edge_entering_before_start(view: TableView) -> bool {
    let mut edges = view.edge_rows();
    edges.any(|edge| edge.time < view.version(edge.to).start)
}

fn has_one_event_with_later_last(view: TableView) -> bool {
    let mut edges = view.edge_rows();
    edges.any(|edge| edge.count == 1 && edge.time < edge.last)
}

fn has_edge_counted_after_newer_edge(view: TableView) -> bool {
    let way = |edge: EdgeRow| (edge.from, view.version(edge.to).entity);
    let mut numbers = 0..view.counts.edges;
    numbers.any(|number| {
        let edge = view.edge(number);
        let mut newer = (number + 1..view.counts.edges).map(|number| view.edge(number));
        newer.any(|newer| way(newer) == way(edge) && newer.time < edge.last)
    })
}
