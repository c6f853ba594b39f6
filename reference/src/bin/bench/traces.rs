//! Traces, the kept log and the test of lent tables.

use crate::batches::FullTrail;
use crate::floor::{follow_edges, read_rows, read_tables};
use crate::library;
use crate::line::{Goal, Line};
use crate::measure::{medians, repeated};
use reference::peer::Trail;
use reference::Tables;

/// A trace to be timed.
#[derive(Clone, Debug)]
pub enum Trace {
    Backward { entity: u32, time: u32 },
    Forward { members: Vec<u32>, time: u32 },
}

/// A work buffer and a mark buffer.
#[derive(PartialEq, Eq)]
pub struct Buffers {
    work: Vec<u8>,
    marks: Vec<u8>,
}

impl Buffers {
    pub fn of(tables: &Tables) -> Buffers {
        Buffers {
            work: vec![7; tables.counts.versions as usize],
            marks: vec![7; tables.counts.entities as usize],
        }
    }
}

impl Trace {
    pub fn backward(entity: u32, time: u32) -> Trace {
        Trace::Backward { entity, time }
    }

    /// The forward trace of a list of one.
    pub fn forward(entity: u32, time: u32) -> Trace {
        let members = vec![entity];
        Trace::Forward { members, time }
    }

    fn direction(&self) -> &'static str {
        match self {
            Trace::Backward { .. } => "backward",
            Trace::Forward { .. } => "forward",
        }
    }

    /// The library's refusal, count and intake.
    pub fn on_library(&self, tables: &Tables, buffers: &mut Buffers) -> [u32; 3] {
        let Buffers { work, marks } = buffers;
        match self {
            Trace::Backward { entity, time } => {
                let answer = library::backward(tables, *entity, *time, work, marks);
                [answer.refusal, answer.count, 0]
            }
            Trace::Forward { members, time } => {
                let answer = library::forward(tables, members, *time, work, marks);
                [answer.refusal, answer.count, answer.intake]
            }
        }
    }

    /// The peer's refusal, count and intake.
    pub fn on_peer(&self, peer: &Trail, buffers: &mut Buffers) -> [u32; 3] {
        let Buffers { work, marks } = buffers;
        match self {
            Trace::Backward { entity, time } => {
                let answer = peer.backward(*entity, *time, work, marks);
                [answer.refusal, answer.count, 0]
            }
            Trace::Forward { members, time } => {
                let answer = peer.forward(members, *time, work, marks);
                [answer.refusal, answer.count, answer.intake]
            }
        }
    }

    /// The answer of both sides, which must have done the same.
    pub fn on_both(&self, tables: &Tables, peer: &Trail) -> [u32; 3] {
        let (mut of_library, mut of_peer) = (Buffers::of(tables), Buffers::of(tables));
        let answer = self.on_library(tables, &mut of_library);
        assert_eq!(answer, self.on_peer(peer, &mut of_peer));
        assert!(of_library == of_peer);
        answer
    }

    /// Times the trace on both sides.
    pub fn line(&self, name: &str, goal: Goal, tables: &Tables, peer: &Trail) -> Line {
        let answer = self.on_both(tables, peer);
        let (mut of_library, mut of_peer) = (Buffers::of(tables), Buffers::of(tables));
        let [library, peer, floor, row_floor] = medians([
            Box::new(|| repeated(|| self.on_library(tables, &mut of_library))),
            Box::new(|| repeated(|| self.on_peer(peer, &mut of_peer))),
            Box::new(|| repeated(|| read_tables(tables))),
            Box::new(|| repeated(|| read_rows(tables))),
        ]);
        let (direction, count) = (self.direction(), answer[1]);
        Line {
            name: format!("{name}: {direction}, {count} entities marked"),
            goal,
            library,
            peer: Some(peer),
            floor,
            row_floor: Some(row_floor),
            events: None,
        }
    }
}

impl FullTrail {
    /// Each direction, with the smallest answer of two entities or more and
    /// with the largest.
    pub fn traces(&self) -> Vec<Line> {
        let mut lines = Vec::new();
        for direction in [Trace::backward, Trace::forward] {
            let (small, large) = self.small_and_large(direction);
            for trace in [small, large] {
                lines.push(trace.line("full trail", Goal::Trace, &self.tables, &self.peer));
            }
        }
        lines
    }

    fn small_and_large(&self, direction: fn(u32, u32) -> Trace) -> (Trace, Trace) {
        let counts = self.tables.counts;
        let mut buffers = Buffers::of(&self.tables);
        let entities = (0..counts.entities).step_by(64);
        let times = [0, 1, 4, 8].map(|part| counts.last / 8 * part);
        let trace = |entity| times.map(|time| direction(entity, time));
        let mut by_count: Vec<(u32, Trace)> = entities
            .flat_map(trace)
            .map(|trace| (trace.on_peer(&self.peer, &mut buffers)[1], trace))
            .filter(|(count, _)| *count > 1)
            .collect();
        by_count.sort_by_key(|(count, _)| *count);
        let (small, large) = (&by_count[0], &by_count[by_count.len() - 1]);
        (small.1.clone(), large.1.clone())
    }

    /// The kept log, written and refused, a refused trace, and beside them
    /// another read of the tables.
    pub fn other_calls(&self) -> Vec<Line> {
        let records = self.tables.counts.entities + self.tables.counts.edges;
        let length = 8 + 12 * records as usize;
        vec![
            self.kept_log("full trail: kept log", Goal::None, length, 0),
            self.kept_log(
                "refusal 16's test: kept log, refused 15",
                Goal::SoundnessTest,
                0,
                15,
            ),
            self.undeclared("refusal 16's test: backward, refused 5"),
            self.followed_edges("no call: read that follows each edge to its versions"),
        ]
    }

    fn kept_log(&self, name: &str, goal: Goal, length: usize, refusal: u32) -> Line {
        let (mut out, mut of_peer) = (vec![7; length], vec![7; length]);
        let answer = library::kept_log(&self.tables, &mut out);
        assert_eq!(answer, self.peer.kept_log(&mut of_peer));
        assert!(answer.refusal == refusal && out == of_peer);
        let [library, peer, floor, row_floor] = medians([
            Box::new(|| repeated(|| library::kept_log(&self.tables, &mut out))),
            Box::new(|| repeated(|| self.peer.kept_log(&mut of_peer))),
            Box::new(|| repeated(|| read_tables(&self.tables))),
            Box::new(|| repeated(|| read_rows(&self.tables))),
        ]);
        Line {
            name: name.to_string(),
            goal,
            library,
            peer: (refusal == 0).then_some(peer),
            floor,
            row_floor: Some(row_floor),
            events: None,
        }
    }

    /// A read that no test of the tables can do without, in the library's
    /// place.
    fn followed_edges(&self, name: &str) -> Line {
        let [library, floor, row_floor] = medians([
            Box::new(|| repeated(|| follow_edges(&self.tables))),
            Box::new(|| repeated(|| read_tables(&self.tables))),
            Box::new(|| repeated(|| read_rows(&self.tables))),
        ]);
        Line {
            name: name.to_string(),
            goal: Goal::None,
            library,
            peer: None,
            floor,
            row_floor: Some(row_floor),
            events: None,
        }
    }

    fn undeclared(&self, name: &str) -> Line {
        let mut buffers = Buffers::of(&self.tables);
        let trace = Trace::backward(self.tables.counts.entities, 0);
        assert_eq!(trace.on_library(&self.tables, &mut buffers), [5, 0, 0]);
        let [library, floor, row_floor] = medians([
            Box::new(|| repeated(|| trace.on_library(&self.tables, &mut buffers))),
            Box::new(|| repeated(|| read_tables(&self.tables))),
            Box::new(|| repeated(|| read_rows(&self.tables))),
        ]);
        Line {
            name: name.to_string(),
            goal: Goal::SoundnessTest,
            library,
            peer: None,
            floor,
            row_floor: Some(row_floor),
            events: None,
        }
    }
}
