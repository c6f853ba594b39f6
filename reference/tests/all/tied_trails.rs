//! Trails with ties of each choice, by several batches: the tables, the full
//! list and the peer must agree.

use crate::common::{backward, forward, fresh, log_of, marks_of, times_around};
use reference::causal::reached_from;
use reference::generate::{at_rising_times, event_file, RecordSource, Ties};
use reference::peer::Trail;
use reference::{Event, FullList, Random, Tables};

/// A trail with ties, its full list, and a trail of the same records at rising
/// times.
pub struct Trails {
    pub tied: Tables,
    pub list: FullList,
    pub rising: Tables,
    /// How often the first event of a batch had the time of the last before.
    borders: usize,
}

impl Trails {
    /// By four batches of up to nine records.
    fn new(random: &mut Random, ties: Ties) -> Trails {
        let mut trails = Trails {
            tied: fresh(60),
            list: FullList::new(),
            rising: fresh(60),
            borders: 0,
        };
        for _ in 0..4 {
            let mut source = RecordSource::after_list(&trails.list).with_ties(ties);
            let records = random.below(10);
            let file = event_file(random, &mut source, records);
            trails.batch(&file);
        }
        trails
    }

    fn batch(&mut self, file: &[u8]) {
        let before = self.list.accepted.len();
        let rising = at_rising_times(file, before as u32);
        let answer = self.tied.batch(file);
        assert_eq!(answer.refusal, 0);
        assert_eq!(self.rising.batch(&rising), answer);
        assert_eq!(self.list.batch(self.tied.view().capacity(), file), answer);
        let events = self.list.events();
        let is_tied = |pair: &[Event]| pair[0].time == pair[1].time;
        self.borders += match events.get(before.wrapping_sub(1)..=before) {
            Some(pair) => usize::from(is_tied(pair)),
            None => 0,
        };
    }

    /// How many events have the time of the one before.
    fn ties(&self) -> usize {
        let events = self.list.events();
        let pairs = events.windows(2);
        pairs.filter(|pair| pair[0].time == pair[1].time).count()
    }

    /// The places at which to trace: each entity at each tick, just before it
    /// and just after it.
    pub fn places(&self) -> Vec<(u32, u32)> {
        let times = times_around(&self.list.events());
        let entities = 0..self.tied.counts.entities;
        let places = entities.flat_map(|entity| times.iter().map(move |time| (entity, *time)));
        places.collect()
    }

    /// How many accepted events have a time up to this one.
    pub fn events_by(&self, time: u32) -> u32 {
        let events = self.list.events();
        events.iter().filter(|event| event.time <= time).count() as u32
    }
}

/// Trails of this choice of ties. But for strictly rising times, there must be
/// ties, and some across the border of two batches.
pub fn trails(seed: u64, ties: Ties) -> Vec<Trails> {
    let mut random = Random::new(seed);
    let trails: Vec<Trails> = (0..40).map(|_| Trails::new(&mut random, ties)).collect();
    let count: usize = trails.iter().map(Trails::ties).sum();
    let borders: usize = trails.iter().map(|trails| trails.borders).sum();
    match ties {
        Ties::Never => assert_eq!((count, borders), (0, 0)),
        _ => assert!(count > 100 && borders > 20, "{count} {borders}"),
    }
    trails
}

#[test]
fn backward_by_the_full_list_and_the_peer() {
    for ties in Ties::ALL {
        for trails in trails(100, ties) {
            let peer = Trail::of_tables(&trails.tied);
            for (entity, time) in trails.places() {
                let (answer, work, marks) = backward(&trails.tied, entity, time);
                let by_list = trails.list.backward_entities(entity as u16, time);
                assert!(by_list.into_iter().map(u32::from).eq(marks_of(&marks)));
                let (mut peer_work, mut peer_marks) = (vec![7; work.len()], vec![7; marks.len()]);
                let by_peer = peer.backward(entity, time, &mut peer_work, &mut peer_marks);
                assert_eq!((by_peer, peer_work, peer_marks), (answer, work, marks));
            }
        }
    }
}

#[test]
fn forward_by_the_full_list_and_the_peer() {
    for ties in Ties::ALL {
        for trails in trails(101, ties) {
            let peer = Trail::of_tables(&trails.tied);
            for (entity, time) in trails.places() {
                let traced = forward(&trails.tied, &[entity], time);
                let mut by_list = vec![7; traced.marks.len()];
                let answer = trails
                    .list
                    .forward(&[entity], time, traced.work.len(), &mut by_list);
                assert_eq!((answer, &by_list), (traced.answer, &traced.marks));
                let mut by_peer = traced.clone();
                let (work, marks) = (&mut by_peer.work, &mut by_peer.marks);
                by_peer.answer = peer.forward(&[entity], time, work, marks);
                assert_eq!(by_peer, traced);
            }
        }
    }
}

/// Over events later than the time never; over those at the time too, only
/// where times rise strictly.
#[test]
fn forward_never_holds_less_than_the_full_answer_over_later_events() {
    for ties in Ties::ALL {
        let mut less = 0;
        for trails in trails(104, ties) {
            for (entity, time) in trails.places() {
                let entity = entity as u16;
                let forward = trails.list.forward_entities(entity, time);
                let mut events = trails.list.events();
                events.retain(|event| event.time >= time);
                less += u32::from(!reached_from(entity, &events).is_subset(&forward));
                events.retain(|event| event.time > time);
                assert!(reached_from(entity, &events).is_subset(&forward));
            }
        }
        assert_eq!(less > 0, ties != Ties::Never, "{less}");
    }
}

/// The kept log has the edges in their order, ticks and all. Taken in again it
/// gives the same edges and the same traces.
#[test]
fn kept_logs_with_ties() {
    let mut ties_kept = 0;
    for ties in Ties::ALL {
        for trails in trails(105, ties) {
            let log = log_of(&trails.tied);
            let mut again = fresh(60);
            assert_eq!(again.batch(&log).refusal, 0);
            assert_eq!(log_of(&again), log);
            let (old, new) = (trails.tied.view(), again.view());
            assert!(old
                .edge_rows()
                .map(|row| (row.kind, row.time))
                .eq(new.edge_rows().map(|row| (row.kind, row.time))));
            assert!(new
                .edge_rows()
                .all(|row| (row.count, row.last) == (1, row.time)));
            let times: Vec<u32> = old.edge_rows().map(|row| row.time).collect();
            ties_kept += times.windows(2).filter(|pair| pair[0] == pair[1]).count();
            for (entity, time) in trails.places() {
                let [of_old, of_new] =
                    [&trails.tied, &again].map(|tables| backward(tables, entity, time).2);
                assert_eq!(of_old, of_new);
                let [of_old, of_new] =
                    [&trails.tied, &again].map(|tables| forward(tables, &[entity], time));
                assert_eq!((of_old.answer, of_old.marks), (of_new.answer, of_new.marks));
            }
        }
    }
    assert!(ties_kept > 300, "{ties_kept}");
}
