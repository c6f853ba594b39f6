//! Causal paths found step by step against every chain of events written out,
//! and document 01's paths by rising times as the special case.

use reference::causal::{leading_to, reached_from};
use reference::generate::{RecordSource, Ties};
use reference::{Event, FileVersion, Random, Record};
use std::collections::BTreeSet;

/// Every causal path of at least one event.
fn all_paths(events: &[Event]) -> Vec<Vec<Event>> {
    let mut paths = Vec::new();
    for choice in 1_u32..1 << events.len() {
        let chosen = (0..events.len()).filter(|index| choice >> index & 1 == 1);
        let path: Vec<Event> = chosen.map(|index| events[index]).collect();
        if is_chain(&path) {
            paths.push(path);
        }
    }
    paths
}

/// The events stand in the order of acceptance.
fn is_chain(events: &[Event]) -> bool {
    let mut pairs = events.windows(2);
    pairs.all(|pair| pair[0].target == pair[1].source)
}

/// As document 01 has it: times rise along the path.
fn has_rising_times(path: &[Event]) -> bool {
    path.windows(2).all(|pair| pair[0].time < pair[1].time)
}

/// The ends of the paths from the entity, itself included.
fn ends_of(paths: &[Vec<Event>], entity: u16) -> BTreeSet<u16> {
    let from_entity = paths.iter().filter(|path| path[0].source == entity);
    let ends = from_entity.map(|path| path.last().unwrap().target);
    ends.chain([entity]).collect()
}

/// The starts of the paths to the entity, itself included.
fn starts_of(paths: &[Vec<Event>], entity: u16) -> BTreeSet<u16> {
    let to_entity = paths
        .iter()
        .filter(|path| path.last().unwrap().target == entity);
    let starts = to_entity.map(|path| path[0].source);
    starts.chain([entity]).collect()
}

fn random_events(random: &mut Random, ties: Ties, count: usize) -> Vec<Event> {
    let mut source = RecordSource::fresh().with_ties(ties);
    let mut events = Vec::new();
    while events.len() < count {
        if let Record::Event(event) = source.record(random, FileVersion::One) {
            events.push(event);
        }
    }
    events
}

/// How many events are equal to the one before, the time included.
fn equal_pairs(events: &[Event]) -> usize {
    let pairs = events.windows(2);
    pairs.filter(|pair| pair[0] == pair[1]).count()
}

#[test]
fn closure_finds_the_ends_of_all_chains() {
    let mut random = Random::new(2);
    let mut equal = 0;
    for ties in Ties::ALL {
        for _ in 0..40 {
            let count = random.below(10);
            let events = random_events(&mut random, ties, count);
            equal += equal_pairs(&events);
            let paths = all_paths(&events);
            for entity in 0..6 {
                assert_eq!(reached_from(entity, &events), ends_of(&paths, entity));
                assert_eq!(leading_to(entity, &events), starts_of(&paths, entity));
            }
        }
    }
    assert!(equal > 20, "{equal}");
}

/// With strictly rising times the paths are those of document 01; with ties
/// there are more.
#[test]
fn paths_by_rising_times_are_the_special_case() {
    let mut random = Random::new(3);
    let mut more = [0; Ties::ALL.len()];
    for (ties, more) in Ties::ALL.into_iter().zip(&mut more) {
        for _ in 0..120 {
            let events = random_events(&mut random, ties, 9);
            let mut rising = all_paths(&events);
            rising.retain(|path| has_rising_times(path));
            for entity in 0..6 {
                let (ends, starts) = (ends_of(&rising, entity), starts_of(&rising, entity));
                let (reached, leading) =
                    (reached_from(entity, &events), leading_to(entity, &events));
                assert!(ends.is_subset(&reached) && starts.is_subset(&leading));
                *more += reached.len() - ends.len() + leading.len() - starts.len();
            }
        }
    }
    assert_eq!(more[0], 0);
    assert!(more[1..].iter().all(|more| *more > 10), "{more:?}");
}

/// Another order of acceptance gives other paths, whatever the times are.
#[test]
fn the_order_of_the_list_decides() {
    let mut random = Random::new(4);
    let mut other = 0;
    for _ in 0..60 {
        let events = random_events(&mut random, Ties::Always, 8);
        let mut turned = events.clone();
        turned.reverse();
        for entity in 0..6 {
            let there = reached_from(entity, &events) != reached_from(entity, &turned);
            other += u32::from(there);
        }
        let in_ticks = events.iter().zip(1..);
        let in_ticks: Vec<Event> = in_ticks
            .map(|(event, time)| Event { time, ..*event })
            .collect();
        for entity in 0..6 {
            assert_eq!(
                reached_from(entity, &in_ticks),
                reached_from(entity, &events)
            );
            assert_eq!(leading_to(entity, &in_ticks), leading_to(entity, &events));
        }
    }
    assert!(other > 20, "{other}");
}
