//! Strictly rising times, as document 01 asks for them: the special case of
//! the order of acceptance, and a measure for trails with ties.

use crate::common::{backward, forward};
use crate::tied_trails::trails;
use reference::generate::Ties;
use reference::{Event, FullList};
use std::collections::BTreeSet;

/// At rising times 1, 2, 3 and so on each event has its own place as its time.
/// A trace at some time is there one at the number of events up to that time.
#[test]
fn the_same_events_at_rising_times() {
    for ties in Ties::ALL {
        for trails in trails(102, ties) {
            assert_eq!(trails.tied.entities, trails.rising.entities);
            assert_eq!(trails.tied.counts.edges, trails.rising.counts.edges);
            for (entity, time) in trails.places() {
                let place = trails.events_by(time);
                let tied = backward(&trails.tied, entity, time);
                assert_eq!(tied, backward(&trails.rising, entity, place));
                let tied = forward(&trails.tied, &[entity], time);
                let rising = forward(&trails.rising, &[entity], place);
                assert_eq!((tied.work, tied.marks), (rising.work, rising.marks));
                let intake = match rising.answer.intake {
                    0 => 0,
                    place => trails.list.accepted[place as usize - 1].event.time,
                };
                assert_eq!(tied.answer.intake, intake);
            }
        }
    }
}

/// As document 01 has it: the entities reached by paths of rising times.
fn reached_by_rising_times(start: u16, events: &[Event]) -> BTreeSet<u16> {
    let mut at: Vec<(u16, u32)> = vec![(start, 0)];
    let mut next = 0;
    while next < at.len() {
        let (entity, time) = at[next];
        let follows = |event: &&Event| event.source == entity && event.time > time;
        let ends = events
            .iter()
            .filter(follows)
            .map(|event| (event.target, event.time));
        let new: Vec<(u16, u32)> = ends.filter(|end| !at.contains(end)).collect();
        at.extend(BTreeSet::from_iter(new));
        next += 1;
    }
    at.into_iter().map(|(entity, _)| entity).collect()
}

/// Forward as document 01 has it, from the events by their times alone.
fn forward_by_rising_times(list: &FullList, entity: u16, time: u32) -> BTreeSet<u16> {
    let kept = list.kept_events().into_iter();
    let intakes = kept.filter(|event| event.target == entity && event.time <= time);
    let intake = intakes.map(|event| event.time).max().unwrap_or(0);
    let mut events = list.events();
    events.retain(|event| event.time > intake);
    reached_by_rising_times(entity, &events)
}

/// Backward likewise: the entities that reach this one by events up to the
/// time.
fn backward_by_rising_times(list: &FullList, entity: u16, time: u32) -> BTreeSet<u16> {
    let mut events = list.events();
    events.retain(|event| event.time <= time);
    let mut entities: BTreeSet<u16> = (0..list.sorts.len() as u16).collect();
    entities.retain(|other| reached_by_rising_times(*other, &events).contains(&entity));
    entities
}

/// With ties the answers of document 01's definition are others.
#[test]
fn document_01_is_the_special_case() {
    for ties in Ties::ALL {
        let mut others = [0; 2];
        for trails in trails(103, ties) {
            for (entity, time) in trails.places() {
                let (list, entity) = (&trails.list, entity as u16);
                let forward = forward_by_rising_times(list, entity, time);
                others[0] += u32::from(forward != list.forward_entities(entity, time));
                let backward = backward_by_rising_times(list, entity, time);
                others[1] += u32::from(backward != list.backward_entities(entity, time));
            }
        }
        match ties {
            Ties::Never => assert_eq!(others, [0, 0]),
            _ => assert!(others.iter().all(|other| *other > 20), "{others:?}"),
        }
    }
}
