//! Batches: into a fresh trail, and small ones on a full trail.

use crate::files::{Filling, Shifts};
use crate::floor::{decode_file, read_tables};
use crate::library;
use crate::line::{Goal, Line};
use crate::measure::{medians, repeated, timed};
use reference::capacity::{MOST_EDGES, MOST_ENTITIES, MOST_VERSIONS};
use reference::kept_log::event_of_edge;
use reference::peer::Trail;
use reference::{
    Answer, BatchAnswer, Capacity, Counts, Event, FileBuilder, Random, TableLengths, Tables,
};
use std::time::Duration;

/// Most events are repeats.
pub const STAGERS: Shifts = Shifts {
    objects: 1_500,
    stagers: 100,
    reports: 1,
    events: 400_000,
    events_a_shift: 50,
};

/// As many events as a trail accepts.
pub const MILLION: Shifts = Shifts {
    objects: 3_600,
    stagers: 400,
    reports: 3,
    events: 1_000_000,
    events_a_shift: 22,
};

/// All version and edge rows.
pub const FULL: Filling = Filling {
    entities: MOST_ENTITIES as u16,
    versions: MOST_VERSIONS as u32,
    edges: MOST_EDGES as u32,
};

/// Tables of as many rows as a trail may have, with nothing in them.
pub fn largest_tables() -> Tables {
    let lengths = TableLengths::of_rows(MOST_ENTITIES, MOST_VERSIONS, MOST_EDGES);
    Tables::fresh(lengths)
}

fn whole_capacity() -> Capacity {
    largest_tables().view().capacity()
}

/// A whole file into a fresh trail, so many times a run.
pub fn from_fresh(name: &str, goal: Goal, file: &[u8], times: u32) -> Line {
    let (mut tables, mut peer) = (largest_tables(), Trail::new());
    let capacity = whole_capacity();
    let answer = peer.batch(capacity, file);
    assert_eq!(library::batch(&mut tables, file), answer);
    let mean = |batch: &mut dyn FnMut() -> Duration| {
        let total: Duration = (0..times).map(|_| batch()).sum();
        total / times
    };
    let [library, of_peer, floor] = medians([
        Box::new(|| {
            mean(&mut || {
                tables.counts = Counts::FRESH;
                taken_whole(timed(|| library::batch(&mut tables, file)))
            })
        }),
        Box::new(|| {
            mean(&mut || {
                peer.clear();
                taken_whole(timed(|| peer.batch(capacity, file)))
            })
        }),
        Box::new(|| repeated(|| decode_file(file))),
    ]);
    assert_same_rows(&tables, &peer);
    let Counts {
        edges, accepted, ..
    } = tables.counts;
    let kept = 100.0 * f64::from(edges) / f64::from(accepted);
    Line {
        name: format!("{name}: {accepted} events, {kept:.0}% kept"),
        goal,
        library,
        peer: Some(of_peer),
        floor,
        row_floor: None,
        events: Some(accepted),
    }
}

/// The time, of a batch that was not refused.
fn taken_whole((answer, time): (BatchAnswer, Duration)) -> Duration {
    assert_eq!(answer.refusal, 0, "the file is made to be taken in whole");
    time
}

/// Both sides must have done the same.
fn assert_same_rows(tables: &Tables, peer: &Trail) {
    let (of_library, of_peer) = (tables.view(), peer.tables());
    assert_eq!(of_library.counts, of_peer.counts);
    assert!(of_library.entity_rows().eq(of_peer.view().entity_rows()));
    assert!(of_library.version_rows().eq(of_peer.view().version_rows()));
    assert!(of_library.edge_rows().eq(of_peer.view().edge_rows()));
}

/// A full trail and the peer's.
pub struct FullTrail {
    pub tables: Tables,
    pub peer: Trail,
}

impl FullTrail {
    /// With all version and edge rows in use.
    pub fn grown() -> FullTrail {
        let trail = FullTrail::of_file(&FULL.file());
        assert_eq!(trail.tables.counts.versions as usize, MOST_VERSIONS);
        assert_eq!(trail.tables.counts.edges as usize, MOST_EDGES);
        trail
    }

    pub fn of_file(file: &[u8]) -> FullTrail {
        let (mut tables, mut peer) = (largest_tables(), Trail::new());
        let of_peer = Answer::Batch(peer.batch(whole_capacity(), file));
        assert_eq!(Answer::Batch(library::batch(&mut tables, file)), of_peer);
        assert_same_rows(&tables, &peer);
        FullTrail { tables, peer }
    }

    /// Many batches of so many repeats; no other event fits a full trail.
    pub fn small_batches(&mut self, batches: u32, events: u32) -> Vec<Line> {
        let files = self.files_of_repeats(batches, events);
        let name = format!("full trail: {batches} batches of {events} repeats");
        let kept = batches_on(name.clone(), Goal::Batch, self, &files, Peer::Kept);
        let name = format!("{name}, (a) made anew");
        let made_anew = batches_on(name, Goal::None, self, &files, Peer::MadeAnew);
        vec![kept, made_anew]
    }

    fn files_of_repeats(&self, batches: u32, events: u32) -> Vec<Vec<u8>> {
        let mut random = Random::new(u64::from(events));
        let ways = self.ways_of_repeats();
        let mut time = self.tables.counts.last;
        let mut file = || {
            let mut file = FileBuilder::new();
            for _ in 0..events {
                time += 1;
                let way = random
                    .pick(&ways)
                    .expect("some edge leaves a latest version");
                file = file.event(Event { time, ..way });
            }
            file.bytes()
        };
        (0..batches).map(|_| file()).collect()
    }

    /// The edges that leave a latest version, as events that repeat them.
    fn ways_of_repeats(&self) -> Vec<Event> {
        let view = self.tables.view();
        let entity = |number: u32| view.version(number).entity;
        let is_latest = |number: u32| view.entity(entity(number)).latest == number;
        let leaving = view.edge_rows().filter(|edge| is_latest(edge.from));
        let events = leaving.map(|edge| event_of_edge(view, edge));
        events.filter(|event| event.kind.may_repeat()).collect()
    }
}

/// How the peer meets a batch.
#[derive(Clone, Copy, Debug, PartialEq, Eq)]
pub enum Peer {
    /// With the state that it keeps.
    Kept,
    /// With its state made from the lent tables, untested, for each batch.
    MadeAnew,
}

/// Batches of repeats, one after another, on tables that hold rows.
pub fn batches_on(
    name: String,
    goal: Goal,
    trail: &mut FullTrail,
    files: &[Vec<u8>],
    state: Peer,
) -> Line {
    let FullTrail { tables, peer } = trail;
    let capacity = tables.view().capacity();
    let before = tables.clone();
    let mut after = peer.clone();
    for file in files {
        let answer = after.batch(capacity, file);
        assert_eq!(library::batch(tables, file), answer);
    }
    let all = |take: &mut dyn FnMut(&[u8]) -> BatchAnswer| {
        let times = files.iter().map(|file| taken_whole(timed(|| take(file))));
        times.sum::<Duration>()
    };
    let [library, of_peer, floor] = medians([
        Box::new(|| {
            tables.counts = before.counts;
            tables.edges.copy_from_slice(&before.edges);
            all(&mut |file| library::batch(tables, file))
        }),
        Box::new(|| {
            let mut peer = peer.clone();
            all(&mut |file| match state {
                Peer::Kept => peer.batch(capacity, file),
                Peer::MadeAnew => Trail::of_tables(&before).batch(capacity, file),
            })
        }),
        Box::new(|| {
            let pass = |file: &Vec<u8>| decode_file(file) ^ read_tables(&before);
            timed(|| files.iter().map(pass).fold(0, |sum, next| sum ^ next)).1
        }),
    ]);
    let events = tables.counts.accepted - before.counts.accepted;
    assert_same_rows(tables, &after);
    *tables = before;
    Line {
        name,
        goal,
        library,
        peer: Some(of_peer),
        floor,
        row_floor: None,
        events: Some(events),
    }
}
