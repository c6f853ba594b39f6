//! Forward traces of thirty studies: all in one call, one call for each, and
//! one of them alone.

use crate::batches::{FullTrail, MILLION};
use crate::measure::{medians, repeated, Side};
use crate::traces::{Buffers, Trace};
use std::collections::BTreeSet;

pub const STUDIES: usize = 30;

/// Medians in seconds, all from the same rounds. They are printed only as
/// ratios.
pub struct Studies {
    pub name: String,
    together: f64,
    in_turn: f64,
    one: f64,
    peer_together: f64,
    peer_one: f64,
}

impl Studies {
    /// The library: one call to a call for each.
    pub fn to_in_turn(&self) -> f64 {
        self.together / self.in_turn
    }

    /// The library: one call to a call of one study.
    pub fn to_one(&self) -> f64 {
        self.together / self.one
    }

    /// One study, library to peer.
    pub fn one_to_peer(&self) -> f64 {
        self.one / self.peer_one
    }

    /// Thirty studies, library to peer.
    pub fn to_peer(&self) -> f64 {
        self.together / self.peer_together
    }
}

/// Studies that nothing enters, entities that have an intake by the time, and
/// half of each, at half of the last time.
pub fn studies() -> Vec<Studies> {
    let trail = FullTrail::of_file(&MILLION.file());
    let never_entered = trail.never_entered();
    let entered: Vec<u32> = trail.entered_by(trail.half_time()).into_iter().collect();
    let half = STUDIES / 2;
    let mixed = [spread(&never_entered, half), spread(&entered, half)].concat();
    vec![
        trail.studies("nothing enters any", &spread(&never_entered, STUDIES)),
        trail.studies("half have intakes", &mixed),
        trail.studies("all have intakes", &spread(&entered, STUDIES)),
    ]
}

/// So many of the entities, from all over.
fn spread(entities: &[u32], count: usize) -> Vec<u32> {
    let place = |number: usize| number * entities.len() / count;
    (0..count).map(|number| entities[place(number)]).collect()
}

impl FullTrail {
    fn half_time(&self) -> u32 {
        self.tables.counts.last / 2
    }

    /// The entities that an edge enters by this time.
    fn entered_by(&self, time: u32) -> BTreeSet<u32> {
        let view = self.tables.view();
        let edges = view.edge_rows().filter(|edge| edge.time <= time);
        edges.map(|edge| view.version(edge.to).entity).collect()
    }

    /// The entities that edges leave and none enters. They are objects, since
    /// stagers read first.
    fn never_entered(&self) -> Vec<u32> {
        let view = self.tables.view();
        let entity = |number: u32| view.version(number).entity;
        let sources: BTreeSet<u32> = view.edge_rows().map(|edge| entity(edge.from)).collect();
        let entered = self.entered_by(self.tables.counts.last);
        sources.difference(&entered).copied().collect()
    }

    fn studies(&self, name: &str, members: &[u32]) -> Studies {
        let trace = |members: &[u32]| Trace::Forward {
            members: members.to_vec(),
            time: self.half_time(),
        };
        let all = [trace(members)];
        let each: Vec<Trace> = members.chunks(1).map(trace).collect();
        let [_, count, intake] = all[0].on_both(&self.tables, &self.peer);
        let [together, in_turn, one, peer_together, peer_one] = medians([
            self.on_library(&all),
            self.on_library(&each),
            self.on_library(&each[..1]),
            self.on_peer(&all),
            self.on_peer(&each[..1]),
        ]);
        Studies {
            name: format!("{name}: intake {intake}, {count} entities marked"),
            together,
            in_turn,
            one,
            peer_together,
            peer_one,
        }
    }

    /// The traces by the library, one after another.
    fn on_library<'a>(&'a self, traces: &'a [Trace]) -> Side<'a> {
        let mut buffers = Buffers::of(&self.tables);
        let mut answer = move |trace: &Trace| trace.on_library(&self.tables, &mut buffers);
        Box::new(move || repeated(|| traces.iter().map(&mut answer).last()))
    }

    /// The traces by the peer, one after another.
    fn on_peer<'a>(&'a self, traces: &'a [Trace]) -> Side<'a> {
        let mut buffers = Buffers::of(&self.tables);
        let mut answer = move |trace: &Trace| trace.on_peer(&self.peer, &mut buffers);
        Box::new(move || repeated(|| traces.iter().map(&mut answer).last()))
    }
}
