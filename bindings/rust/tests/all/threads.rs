//! Calls from several threads.

use crate::common::{entity_numbers, grown, read, worked_file};
use std::thread;
use trail::{EntityNo, ForwardTrace, Time, Trace, Trail};

#[test]
fn a_trail_may_be_sent_and_shared() {
    fn may_be<T: Send + Sync + Clone + 'static>() {}
    may_be::<Trail>();
}

/// Both traces of each entity, at half the time and at the end.
fn traces(trail: &Trail) -> Vec<(Trace, ForwardTrace)> {
    let last = trail.counts().last.0;
    entity_numbers(trail)
        .flat_map(|entity| [(entity, Time(last / 2)), (entity, Time(last))])
        .map(|(entity, time)| {
            let backward = trail.backward(entity, time).unwrap();
            (backward, trail.forward(&[entity], time).unwrap())
        })
        .collect()
}

#[test]
fn many_threads_ask_one_trail() {
    let trail = grown(&read("examples/shell.slt"));
    let expected = traces(&trail);
    thread::scope(|scope| {
        for _ in 0..8 {
            scope.spawn(|| assert_eq!(traces(&trail), expected));
        }
    });
}

#[test]
fn clones_grow_while_others_ask() {
    let trail = grown(&worked_file());
    let expected = traces(&trail);
    let again = trail.kept_log();
    thread::scope(|scope| {
        for _ in 0..4 {
            scope.spawn(|| assert_eq!(traces(&trail), expected));
            let mut clone = trail.clone();
            let again = &again;
            scope.spawn(move || {
                // Entity 0 is not the next any more: nothing is taken in.
                assert_eq!(clone.batch(again).unwrap_err().record, 1);
                assert_eq!(clone.backward(EntityNo(2), Time(7)).unwrap().count(), 4);
            });
        }
    });
    assert_eq!(traces(&trail), expected);
}
