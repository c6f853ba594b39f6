//! Which accepted events each kept event stands for.

use crate::full_list::FullList;
use crate::rows::EdgeRow;

/// How many accepted events, and the time of the last of them.
#[derive(Clone, Copy, Debug, PartialEq, Eq)]
pub struct StandsFor {
    pub count: u32,
    pub last: u32,
}

impl StandsFor {
    /// What the row of an edge says.
    pub fn of_edge(edge: EdgeRow) -> StandsFor {
        StandsFor {
            count: edge.count,
            last: edge.last,
        }
    }
}

impl FullList {
    /// What each kept event stands for: itself and those dropped for it.
    pub fn stands_for(&self) -> Vec<StandsFor> {
        let places = 0..self.accepted.len();
        let kept_for: Vec<usize> = places.clone().map(|place| self.kept_for(place)).collect();
        let kept = places.clone().filter(|place| self.accepted[*place].kept);
        let stands_for = |one: usize| {
            let own = places.clone().filter(|place| kept_for[*place] == one);
            let times: Vec<u32> = own.map(|place| self.accepted[place].event.time).collect();
            StandsFor {
                count: times.len() as u32,
                last: times.last().copied().unwrap_or(0),
            }
        };
        kept.map(stands_for).collect()
    }

    /// The place of the kept event that stands for the accepted one at this
    /// place: the last kept up to there that goes from its source to its
    /// target. For a kept one, its own place.
    fn kept_for(&self, place: usize) -> usize {
        let ends = |place: usize| {
            let event = self.accepted[place].event;
            (event.source, event.target)
        };
        let stands_for = |one: &usize| self.accepted[*one].kept && ends(*one) == ends(place);
        let mut up_to = (0..=place).rev();
        up_to
            .find(stands_for)
            .expect("some kept event stands for each")
    }
}
