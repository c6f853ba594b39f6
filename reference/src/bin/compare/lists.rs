//! Lists of calls that start from a fresh trail, beside the full list of
//! accepted events.

use crate::calls::{forward, small_lists, times_of, traces, BufferLengths};
use crate::comparison::{Compared, Comparison};
use crate::difference::{differ, Difference};
use crate::made::Made;
use crate::round_trip::taken_in_again;
use reference::file::events_among;
use reference::full_list::StandsFor;
use reference::generate::{any_members, any_time, call_list, lend_anew, roomy_lengths, LentCall};
use reference::{Answer, Call, FullList, Random, TableLengths, Tables};

const LISTS: usize = 60;
const CALLS: usize = 14;
/// One in this many lists gets all its traces at the end.
const ALL_ONE_IN: usize = 10;
/// Places traced at the end of each other list.
const TRACES: usize = 60;
/// Lists of members traced at the end of each list of calls.
const MEMBER_LISTS: usize = 30;

pub fn lists_of_calls(comparison: &mut Comparison, random: &mut Random) -> Compared {
    for number in 0..LISTS {
        let mut trail = ListTrail::fresh();
        for call in call_list(random, CALLS) {
            trail.run(comparison, random, call)?;
        }
        let lengths = roomy_lengths(trail.tables.counts);
        taken_in_again(comparison, &trail.tables, lengths)?;
        if number % ALL_ONE_IN == 0 {
            trail.all_traces(comparison)?;
        } else {
            trail.some_traces(comparison, random)?;
        }
        trail.some_lists(comparison, random)?;
    }
    Ok(())
}

/// The tables and the full list after the same calls, and the events that
/// these took in, counted from their files.
pub struct ListTrail {
    pub tables: Tables,
    pub list: FullList,
    events: u64,
}

impl ListTrail {
    pub fn fresh() -> ListTrail {
        ListTrail {
            tables: Tables::fresh(TableLengths::of_rows(0, 0, 0)),
            list: FullList::new(),
            events: 0,
        }
    }

    /// How many records were taken in.
    pub fn taken(&self) -> usize {
        let FullList {
            sorts,
            signed,
            accepted,
        } = &self.list;
        sorts.len() + signed.len() + accepted.len()
    }

    /// Makes the call in tables lent anew.
    fn run(
        &mut self,
        comparison: &mut Comparison,
        random: &mut Random,
        lent: LentCall,
    ) -> Compared {
        self.tables = lend_anew(random, &self.tables, lent.lengths);
        self.call(comparison, lent.call)
    }

    /// Makes the call and compares it with the full list too.
    pub fn call(&mut self, comparison: &mut Comparison, call: Call) -> Compared {
        let made = comparison.call(&self.tables, call.clone())?;
        let capacity = self.tables.view().capacity();
        let (answer, marks) = self.list.run(capacity, call.clone());
        let place = differ_from_list(&made, &self.list, answer, marks)
            .or_else(|| self.differ_in_events(&call, &made));
        match place {
            Some(place) => Err(Difference::new(&self.tables, &call, place)),
            None => {
                self.tables = made.tables;
                Ok(())
            }
        }
    }

    /// After a batch: what each edge stands for by the full list, and what
    /// all stand for by the files.
    fn differ_in_events(&mut self, call: &Call, made: &Made) -> Option<String> {
        let (Call::Batch { file }, Answer::Batch(answer)) = (call, made.answer) else {
            return None;
        };
        self.events += events_among(file, answer.taken);
        let (view, stands_for) = (made.tables.view(), self.list.stands_for());
        let of_edges: Vec<StandsFor> = view.edge_rows().map(StandsFor::of_edge).collect();
        differ("edges, by the full list", of_edges, stands_for).or_else(|| {
            let sum = view.counted_events();
            differ("sum of the counts, by the files", sum, self.events)
        })
    }

    /// Both traces of some entities at some times.
    fn some_traces(&mut self, comparison: &mut Comparison, random: &mut Random) -> Compared {
        let mut places = self.trace_places();
        random.shuffle(&mut places);
        places.truncate(TRACES);
        for (entity, time) in places {
            self.traces(comparison, entity, time)?;
        }
        Ok(())
    }

    /// Both traces of each entity at each time.
    pub fn all_traces(&mut self, comparison: &mut Comparison) -> Compared {
        for (entity, time) in self.trace_places() {
            self.traces(comparison, entity, time)?;
        }
        Ok(())
    }

    fn traces(&mut self, comparison: &mut Comparison, entity: u32, time: u32) -> Compared {
        for call in traces(entity, time, BufferLengths::of(self.tables.counts)) {
            self.call(comparison, call)?;
        }
        Ok(())
    }

    /// The forward traces of some lists at some times.
    fn some_lists(&mut self, comparison: &mut Comparison, random: &mut Random) -> Compared {
        let counts = self.tables.counts;
        for _ in 0..MEMBER_LISTS {
            let members = any_members(random, counts.entities);
            self.forward(comparison, &members, any_time(random, counts.last))?;
        }
        Ok(())
    }

    /// The forward traces of the empty list, and of small lists at each time.
    pub fn small_lists(&mut self, comparison: &mut Comparison) -> Compared {
        self.forward(comparison, &[], self.tables.counts.last)?;
        let times = times_of(&self.tables);
        for members in small_lists(self.tables.counts.entities) {
            for time in &times {
                self.forward(comparison, &members, *time)?;
            }
        }
        Ok(())
    }

    fn forward(&mut self, comparison: &mut Comparison, members: &[u32], time: u32) -> Compared {
        let lengths = BufferLengths::of(self.tables.counts);
        self.call(comparison, forward(members, time, lengths))
    }

    fn trace_places(&self) -> Vec<(u32, u32)> {
        let times = times_of(&self.tables);
        let entities = 0..self.tables.counts.entities;
        let places = entities.flat_map(|entity| times.iter().map(move |time| (entity, *time)));
        places.collect()
    }
}

fn differ_from_list(
    made: &Made,
    list: &FullList,
    answer: Answer,
    marks: Vec<u8>,
) -> Option<String> {
    let counts = list.counts();
    let sorts = made.tables.view().entity_rows().map(|row| row.sort);
    let sorts: Vec<u32> = sorts.collect();
    differ("answer, by the full list", made.answer, answer)
        .or_else(|| differ("counts, by the full list", made.tables.counts, counts))
        .or_else(|| differ("sorts, by the full list", sorts, list.row_sorts()))
        .or_else(|| differ("marks, by the full list", marks_of(&made.call), &marks))
}

fn marks_of(call: &Call) -> &[u8] {
    match call {
        Call::Backward { marks, .. } | Call::Forward { marks, .. } => marks,
        _ => &[],
    }
}
