//! The peer's traces: a search from the start versions along the lists.

use super::{Trail, NO_EDGE};
use crate::answers::{BackwardAnswer, ForwardAnswer};
use crate::refusal;
use crate::rows::NO_VERSION;

/// The marks of a trace and the marked versions still to be left.
struct Search<'a> {
    trail: &'a Trail,
    work: &'a mut [u8],
    marks: &'a mut [u8],
    count: u32,
    open: Vec<u32>,
}

impl<'a> Search<'a> {
    fn new(trail: &'a Trail, work: &'a mut [u8], marks: &'a mut [u8]) -> Search<'a> {
        let work = &mut work[..trail.versions.len()];
        let marks = &mut marks[..trail.entities.len()];
        work.fill(0);
        marks.fill(0);
        Search {
            trail,
            work,
            marks,
            count: 0,
            open: Vec::new(),
        }
    }

    /// Marks the version; true if it was not marked before.
    #[inline]
    fn mark(&mut self, number: u32) -> bool {
        let mark = &mut self.work[number as usize];
        let is_new = *mark == 0;
        if is_new {
            *mark = 1;
            self.mark_entity(number);
            self.open.push(number);
        }
        is_new
    }

    #[inline]
    fn mark_entity(&mut self, number: u32) {
        let entity = self.trail.versions[number as usize].row.entity;
        let mark = &mut self.marks[entity as usize];
        self.count += u32::from(1 - *mark);
        *mark = 1;
    }

    /// Marks what stands before the version; edges up to the time alone.
    fn go_back(&mut self, number: u32, time: u32) {
        let version = &self.trail.versions[number as usize];
        if version.row.previous != NO_VERSION {
            self.mark(version.row.previous);
        }
        let mut edge = version.entering;
        while edge != NO_EDGE {
            let entering = &self.trail.edges[edge as usize];
            if entering.row.time <= time {
                self.mark(entering.row.from);
            }
            edge = entering.next_entering;
        }
    }

    /// Marks what the version gave to and the versions after it.
    fn go_on(&mut self, number: u32) {
        let version = &self.trail.versions[number as usize];
        let mut after = version.after;
        while after != NO_VERSION {
            self.mark(after);
            after = self.trail.versions[after as usize].beside;
        }
        let mut edge = version.leaving;
        while edge != NO_EDGE {
            let leaving = &self.trail.edges[edge as usize];
            self.mark(leaving.row.to);
            edge = leaving.next_leaving;
        }
    }
}

impl Trail {
    pub fn backward(
        &self,
        entity: u32,
        time: u32,
        work: &mut [u8],
        marks: &mut [u8],
    ) -> BackwardAnswer {
        if let Err(refusal) = self.check_trace(&[entity], work.len(), marks.len()) {
            return BackwardAnswer { refusal, count: 0 };
        }
        let start = self.start_version(entity, time);
        let mut search = Search::new(self, work, marks);
        search.mark(start);
        while let Some(number) = search.open.pop() {
            let time = if number == start { time } else { u32::MAX };
            search.go_back(number, time);
        }
        BackwardAnswer {
            refusal: refusal::NONE,
            count: search.count,
        }
    }

    /// Marks the start versions of all members, each with its intake where it
    /// is new, and searches from all of them at once.
    pub fn forward(
        &self,
        members: &[u32],
        time: u32,
        work: &mut [u8],
        marks: &mut [u8],
    ) -> ForwardAnswer {
        if let Err(refusal) = self.check_trace(members, work.len(), marks.len()) {
            return ForwardAnswer {
                refusal,
                count: 0,
                intake: 0,
            };
        }
        let mut search = Search::new(self, work, marks);
        let starts = members
            .iter()
            .map(|entity| self.start_version(*entity, time));
        let new_starts = starts.filter(|start| search.mark(*start));
        let intakes = new_starts.map(|start| self.intake(start, time));
        let intake = intakes.min().unwrap_or(0);
        while let Some(number) = search.open.pop() {
            search.go_on(number);
        }
        ForwardAnswer {
            refusal: refusal::NONE,
            count: search.count,
            intake,
        }
    }

    /// Refusals 5 and 14.
    fn check_trace(&self, asked: &[u32], work: usize, marks: usize) -> Result<(), u32> {
        let is_undeclared = |entity: &u32| *entity as usize >= self.entities.len();
        if asked.iter().any(is_undeclared) {
            return Err(refusal::UNDECLARED);
        }
        if marks < self.entities.len() || work < self.versions.len() {
            return Err(refusal::BUFFER);
        }
        Ok(())
    }

    /// Along the chain numbers fall and starts do not rise, so the first
    /// version that has started is the one.
    fn start_version(&self, entity: u32, time: u32) -> u32 {
        let mut number = self.entities[entity as usize].latest;
        while self.versions[number as usize].row.start > time {
            number = self.versions[number as usize].row.previous;
        }
        number
    }

    /// The list has the newest edge first, and times along it do not rise.
    fn intake(&self, start: u32, time: u32) -> u32 {
        let version = &self.versions[start as usize];
        let mut edge = version.entering;
        while edge != NO_EDGE {
            let entering = &self.edges[edge as usize];
            if entering.row.time <= time {
                return entering.row.time;
            }
            edge = entering.next_entering;
        }
        version.row.start
    }
}
