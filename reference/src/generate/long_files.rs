//! Files of many records.

use crate::file_builder::FileBuilder;
use crate::generate::ties::Ties;
use crate::random::Random;
use crate::record::{Declaration, Event, Kind, Sort};
use std::collections::BTreeSet;

/// A file that declares this many entities, an object and a subject by turns,
/// and then has this many events, one in three of them in the tick of the one
/// before. A kind named twice comes twice as often.
pub fn long_file(random: &mut Random, entities: u16, kinds: &[Kind], events: usize) -> Vec<u8> {
    let mut file = declarations(FileBuilder::new(), entities);
    let mut time = 0;
    for _ in 0..events {
        time = Ties::Often.next_time(random, time);
        file = file.event(long_file_event(random, entities, kinds, time));
    }
    file.bytes()
}

/// A version 2 file like a long file of all kinds, in which one object after
/// the other is signed, the first alone excepted.
pub fn long_signed_file(random: &mut Random, entities: u16, events: usize) -> Vec<u8> {
    let mut file = declarations(FileBuilder::version_2(), entities);
    let mut objects: Vec<u16> = (2..entities).step_by(2).collect();
    random.shuffle(&mut objects);
    let one_in = events / (objects.len() + 1) + 1;
    let (mut signed, mut time) = (BTreeSet::new(), 0);
    for _ in 0..events {
        if let (true, Some(object)) = (random.one_in(one_in), objects.last()) {
            file = file.sign(*object);
            signed.extend(objects.pop());
        }
        time = Ties::Often.next_time(random, time);
        file = file.event(event_into_unsigned(random, entities, &signed, time));
    }
    file.bytes()
}

/// An event of any kind that goes into none of the signed objects.
fn event_into_unsigned(
    random: &mut Random,
    entities: u16,
    signed: &BTreeSet<u16>,
    time: u32,
) -> Event {
    loop {
        let event = long_file_event(random, entities, &Kind::ALL, time);
        if !signed.contains(&event.target) {
            return event;
        }
    }
}

fn declarations(file: FileBuilder, entities: u16) -> FileBuilder {
    let declaration = |number: u16| Declaration {
        number,
        sort: Sort::ALL[usize::from(number % 2)],
    };
    let numbers = 0..entities;
    numbers.fold(file, |file, number| file.declaration(declaration(number)))
}

/// An event of one of the kinds, between any two entities of its sorts.
pub fn long_file_event(random: &mut Random, entities: u16, kinds: &[Kind], time: u32) -> Event {
    let kind = random.pick(kinds).expect("some kind is named");
    let (source_sort, target_sort) = kind.sorts();
    loop {
        let source = entity_of(random, entities, source_sort);
        let target = entity_of(random, entities, target_sort);
        if source != target {
            return Event {
                kind,
                source,
                target,
                time,
            };
        }
    }
}

/// Objects have even numbers, subjects odd ones.
fn entity_of(random: &mut Random, entities: u16, sort: Sort) -> u16 {
    let first = sort.number() as u16;
    let count = (entities + 1 - first) / 2;
    first + 2 * random.below(usize::from(count)) as u16
}
