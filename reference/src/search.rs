//! The search for a repeat: the edges from the newest on, up to the first
//! hit.

use crate::table_view::TableView;

/// What a search found.
#[derive(Clone, Copy, Debug, PartialEq, Eq)]
pub struct Search {
    /// The newest edge that makes the event a repeat.
    pub hit: Option<u32>,
    /// How many edges were tried, the hit among them; all if there is none.
    pub tried: u64,
}

/// Tries one edge after the other, the newest first, until one of them, of
/// whatever kind, goes from this version to some version of the target.
pub fn search(view: TableView, from: u32, target: u32) -> Search {
    let mut tried = 0;
    for number in (0..view.counts.edges).rev() {
        tried += 1;
        let edge = view.edge(number);
        if edge.from == from && view.version(edge.to).entity == target {
            let hit = Some(number);
            return Search { hit, tried };
        }
    }
    Search { hit: None, tried }
}
