//! How many edges a batch tries, by the kept events alone: these are the
//! edges, in their order.

use crate::full_list::FullList;
use crate::record::Event;

impl FullList {
    /// The edges tried for the accepted events but the first `before`.
    pub(super) fn tried_after(&self, before: usize) -> u64 {
        let indexes = before..self.accepted.len();
        indexes.map(|index| self.tried_for(index) as u64).sum()
    }

    /// The edges tried for the accepted event with this index, from 0: none
    /// for kinds 4 and 5; all that were kept before it if it is kept too; else
    /// those from the one that stands for it on.
    fn tried_for(&self, index: usize) -> usize {
        let accepted = self.accepted[index];
        let event = accepted.event;
        let goes_there = |one: &Event| (one.source, one.target) == (event.source, event.target);
        let before = self.kept_before(index);
        let newest = before.iter().rev().position(goes_there);
        match newest {
            _ if !event.kind.may_repeat() => 0,
            _ if accepted.kept => before.len(),
            Some(newer) => newer + 1,
            None => panic!("an event was dropped that no kept one stands for"),
        }
    }

    /// The kept events among the accepted ones before this index.
    fn kept_before(&self, index: usize) -> Vec<Event> {
        let before = self.accepted[..index].iter();
        let kept = before.filter(|accepted| accepted.kept);
        kept.map(|accepted| accepted.event).collect()
    }
}
