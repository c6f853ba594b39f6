//! How the cost of an event grows with the edges.

use crate::batches::from_fresh;
use crate::files::Filling;
use crate::line::{Goal, Line};
use reference::capacity::MOST_EDGES;

/// The sizes, in edges.
pub const SIZES: [u32; 5] = [1_000, BASE, 16_384, 65_536, MOST_EDGES as u32];
/// Costs are printed as ratios to the cost at this size.
pub const BASE: u32 = 4_096;

/// A file with few repeats into a fresh trail.
pub struct Growth {
    pub lines: Vec<(u32, Line)>,
}

impl Growth {
    pub fn measured() -> Growth {
        let line = |edges: u32| {
            let file = Filling::of_edges(edges).file();
            let times = MOST_EDGES as u32 / edges;
            (edges, from_fresh("growth", Goal::None, &file, times))
        };
        Growth {
            lines: SIZES.into_iter().map(line).collect(),
        }
    }

    /// The cost of an event at this size to that at the base.
    pub fn ratio(&self, line: &Line) -> f64 {
        line.seconds_an_event() / self.base().seconds_an_event()
    }

    /// The same for the peer.
    pub fn peer_ratio(&self, line: &Line) -> f64 {
        let cost = |line: &Line| line.seconds_an_event() / line.to_peer().unwrap_or(1.0);
        cost(line) / cost(self.base())
    }

    /// The ratio at the largest size.
    pub fn largest(&self) -> f64 {
        self.lines.last().map_or(0.0, |(_, line)| self.ratio(line))
    }

    fn base(&self) -> &Line {
        let base = self.lines.iter().find(|(edges, _)| *edges == BASE);
        &base.expect("the base is one of the sizes").1
    }
}
