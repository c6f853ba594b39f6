//! Calls with buffers of given lengths, and the calls that several sections
//! make.

use crate::comparison::{Compared, Comparison};
use crate::made::Made;
use reference::generate::calls::batch_on;
use reference::generate::{any_backward, any_forward, any_members};
use reference::kept_log::log_length;
use reference::{Call, Counts, Random, Tables};
use std::collections::BTreeSet;

/// Fills the buffers before a call. No call writes it.
const FILL: u8 = 0xA7;

/// Counts of unsound tables may be far above this.
const MOST_BYTES: usize = 70_000;

/// Lists traced at each time.
const LISTS_A_TIME: usize = 2;

/// The lengths of the work buffer and of the mark buffer.
#[derive(Clone, Copy)]
pub struct BufferLengths {
    pub work: usize,
    pub marks: usize,
}

impl BufferLengths {
    /// As long as the counts ask, up to a limit.
    pub fn of(counts: Counts) -> BufferLengths {
        BufferLengths {
            work: (counts.versions as usize).min(MOST_BYTES),
            marks: (counts.entities as usize).min(MOST_BYTES),
        }
    }
}

fn backward(entity: u32, time: u32, lengths: BufferLengths) -> Call {
    Call::Backward {
        entity,
        time,
        work: vec![FILL; lengths.work],
        marks: vec![FILL; lengths.marks],
    }
}

pub fn forward(members: &[u32], time: u32, lengths: BufferLengths) -> Call {
    Call::Forward {
        members: members.to_vec(),
        time,
        work: vec![FILL; lengths.work],
        marks: vec![FILL; lengths.marks],
    }
}

/// The backward and the forward trace of one entity.
pub fn traces(entity: u32, time: u32, lengths: BufferLengths) -> [Call; 2] {
    [
        backward(entity, time, lengths),
        forward(&[entity], time, lengths),
    ]
}

/// The kept log into an output of this length.
pub fn kept_log(length: usize) -> Call {
    Call::KeptLog {
        out: vec![FILL; length],
    }
}

/// Every two entities, the lower first or last, and all at once.
pub fn small_lists(entities: u32) -> Vec<Vec<u32>> {
    let mut lists = Vec::new();
    for second in 0..entities {
        for first in 0..second {
            lists.push(match first % 2 {
                0 => vec![first, second],
                _ => vec![second, first],
            });
        }
    }
    if entities > 2 {
        lists.push((0..entities).collect());
    }
    lists
}

/// The times at which a trace may change, those just before and after, the
/// first and the last time of all.
pub fn times_of(tables: &Tables) -> BTreeSet<u32> {
    let view = tables.view();
    let starts = view.version_rows().map(|version| version.start);
    let times = view.edge_rows().map(|edge| edge.time);
    let own = starts.chain(times).chain([tables.counts.last]);
    let around = |time: u32| [time.saturating_sub(1), time, time.saturating_add(1)];
    own.flat_map(around).chain([0, u32::MAX]).collect()
}

/// Calls that several sections make.
impl Comparison {
    /// Both traces, with buffers of exactly the right lengths.
    pub fn traces(&mut self, tables: &Tables, entity: u32, time: u32) -> Compared {
        for call in traces(entity, time, BufferLengths::of(tables.counts)) {
            self.call(tables, call)?;
        }
        Ok(())
    }

    /// The forward trace, with buffers of exactly the right lengths.
    pub fn forward(&mut self, tables: &Tables, members: &[u32], time: u32) -> Compared<Made> {
        self.call(
            tables,
            forward(members, time, BufferLengths::of(tables.counts)),
        )
    }

    /// At each time at which they may change, both traces of each entity and
    /// the forward traces of some lists.
    pub fn all_traces(&mut self, random: &mut Random, tables: &Tables) -> Compared {
        let entities = tables.counts.entities;
        for time in times_of(tables) {
            for entity in 0..entities {
                self.traces(tables, entity, time)?;
            }
            for _ in 0..LISTS_A_TIME {
                self.forward(tables, &any_members(random, entities), time)?;
            }
        }
        Ok(())
    }

    /// The kept log into outputs of the right length, one short, one longer.
    pub fn kept_logs(&mut self, tables: &Tables) -> Compared {
        let length = log_length(tables.view());
        for length in [length, length - 1, length + 1] {
            self.call(tables, kept_log(length))?;
        }
        Ok(())
    }

    /// Each of the four calls once, on any tables at all. The batch may be
    /// refused, and so may the others.
    pub fn each_call(&mut self, random: &mut Random, tables: &Tables) -> Compared {
        self.call(tables, batch_on(random, tables))?;
        self.call(tables, any_backward(random, tables.counts))?;
        self.call(tables, any_forward(random, tables.counts))?;
        let log = log_length(tables.view()).min(MOST_BYTES);
        let length = random.below(4) + log - 1;
        self.call(tables, kept_log(length))?;
        Ok(())
    }
}
