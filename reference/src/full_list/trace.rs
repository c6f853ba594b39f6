//! Traces by causal paths.

use crate::answers::{BackwardAnswer, ForwardAnswer};
use crate::causal::{leading_to, reached_from};
use crate::full_list::FullList;
use crate::refusal;
use std::collections::BTreeSet;

impl FullList {
    /// The entities with a causal path to this one in by the time: every event
    /// at or before it counts.
    pub fn backward_entities(&self, entity: u16, time: u32) -> BTreeSet<u16> {
        let mut events = self.events();
        events.retain(|event| event.time <= time);
        leading_to(entity, &events)
    }

    /// The entities reached from the latest kept intake at or before the time
    /// through events accepted after it alone; from time 0 by any causal path.
    pub fn forward_entities(&self, entity: u16, time: u32) -> BTreeSet<u16> {
        let first = match self.latest_intake(entity, time) {
            Some(intake) => intake + 1,
            None => 0,
        };
        reached_from(entity, &self.events()[first..])
    }

    /// The place, from 0, of the latest kept intake of the entity at or before
    /// the time: the last accepted of them.
    pub fn latest_intake(&self, entity: u16, time: u32) -> Option<usize> {
        self.accepted.iter().rposition(|accepted| {
            let event = accepted.event;
            accepted.kept && event.target == entity && event.time <= time
        })
    }

    /// Whether the accepted event with this index, from 0, gives its target
    /// an ancestor.
    pub fn gains_ancestor(&self, index: usize) -> bool {
        let events = self.events();
        let target = events[index].target;
        leading_to(target, &events[..index]) != leading_to(target, &events[..=index])
    }

    /// The backward trace, without the bytes of the work buffer.
    pub fn backward(
        &self,
        entity: u32,
        time: u32,
        work_length: usize,
        marks: &mut [u8],
    ) -> BackwardAnswer {
        let refusal = self.trace_refusal(&[entity], work_length, marks.len());
        if refusal != refusal::NONE {
            return BackwardAnswer { refusal, count: 0 };
        }
        let entities = self.backward_entities(entity as u16, time);
        let count = self.write_marks(&entities, marks);
        BackwardAnswer { refusal, count }
    }

    /// The forward trace, without the bytes of the work buffer: each member
    /// from its own latest kept intake.
    pub fn forward(
        &self,
        members: &[u32],
        time: u32,
        work_length: usize,
        marks: &mut [u8],
    ) -> ForwardAnswer {
        let refusal = self.trace_refusal(members, work_length, marks.len());
        if refusal != refusal::NONE {
            return ForwardAnswer {
                refusal,
                count: 0,
                intake: 0,
            };
        }
        let members: BTreeSet<u16> = members.iter().map(|entity| *entity as u16).collect();
        let reached = |entity: &u16| self.forward_entities(*entity, time);
        let entities: BTreeSet<u16> = members.iter().flat_map(reached).collect();
        let intakes = members.iter().map(|entity| self.intake_time(*entity, time));
        ForwardAnswer {
            refusal,
            count: self.write_marks(&entities, marks),
            intake: intakes.min().unwrap_or(0),
        }
    }

    /// The time of the latest kept intake at or before the time, else 0.
    fn intake_time(&self, entity: u16, time: u32) -> u32 {
        let intake = self.latest_intake(entity, time);
        intake.map_or(0, |place| self.accepted[place].event.time)
    }

    /// The first of 5 and 14 to hold, or 0.
    fn trace_refusal(&self, asked: &[u32], work_length: usize, marks_length: usize) -> u32 {
        let is_undeclared = |entity: &u32| *entity as usize >= self.sorts.len();
        if asked.iter().any(is_undeclared) {
            return refusal::UNDECLARED;
        }
        if work_length < self.version_count() || marks_length < self.sorts.len() {
            return refusal::BUFFER;
        }
        refusal::NONE
    }

    fn write_marks(&self, entities: &BTreeSet<u16>, marks: &mut [u8]) -> u32 {
        let in_use = &mut marks[..self.sorts.len()];
        for (number, mark) in in_use.iter_mut().enumerate() {
            *mark = u8::from(entities.contains(&(number as u16)));
        }
        entities.len() as u32
    }
}
